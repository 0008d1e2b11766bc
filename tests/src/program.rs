//! Running the program under test, and comparing its answers with the model's.

use std::io::{Read, Write};
use std::path::{Path, PathBuf};
use std::process::{Command, ExitStatus, Stdio};
use std::thread;

use crate::calls::{text_of_answer, to_bytes, to_words, Call, WORD_BYTES};
use crate::model::answers::answer;

/// What answers the calls: a program of its own, or the model itself.
pub enum Program {
    Binary(PathBuf),
    Model,
}

/// Answers in the order of the calls, and what went wrong besides.
pub struct Answers {
    pub answers: Vec<Vec<u32>>,
    pub trouble: Option<String>,
}

/// Calls whose answers are not what they must be. Mostly it is one call.
#[derive(Debug)]
pub struct Difference {
    pub calls: Vec<Call>,
    pub report: String,
}

impl Program {
    pub fn run(&self, calls: &[Call]) -> Answers {
        match self {
            Program::Binary(path) => run_binary(path, calls).unwrap_or_else(|error| Answers {
                answers: Vec::new(),
                trouble: Some(format!("cannot run {}: {error}", path.display())),
            }),
            Program::Model => Answers {
                answers: calls.iter().map(answer).collect(),
                trouble: None,
            },
        }
    }

    /// The answers, if every call got the model's answer.
    pub fn check(&self, calls: &[Call]) -> Result<Vec<Vec<u32>>, Difference> {
        let expected: Vec<Vec<u32>> = calls.iter().map(answer).collect();
        self.check_against(calls, &expected)
    }

    /// The answers, if they are the expected ones word for word.
    pub fn check_against(
        &self,
        calls: &[Call],
        expected: &[Vec<u32>],
    ) -> Result<Vec<Vec<u32>>, Difference> {
        let got = self.run(calls);
        for ((call, expected), got) in calls.iter().zip(expected).zip(&got.answers) {
            if expected != got {
                return Err(difference(call, expected, got));
            }
        }
        match got.trouble {
            None => Ok(got.answers),
            Some(trouble) => Err(self.narrowed(calls, expected, &got.answers, trouble)),
        }
    }

    /// The program broke off, perhaps with answers held back: look for one call
    /// that alone does it.
    fn narrowed(
        &self,
        calls: &[Call],
        expected: &[Vec<u32>],
        got: &[Vec<u32>],
        trouble: String,
    ) -> Difference {
        if calls.len() > 1 {
            for place in got.len()..calls.len() {
                let alone = self.check_against(&calls[place..=place], &expected[place..=place]);
                if let Err(difference) = alone {
                    return difference;
                }
            }
        }
        let report = format!(
            "{}: {trouble}; {} of {} calls answered",
            calls[0].name(),
            got.len(),
            calls.len()
        );
        Difference {
            calls: calls.to_vec(),
            report,
        }
    }
}

fn run_binary(path: &Path, calls: &[Call]) -> std::io::Result<Answers> {
    let mut words = Vec::new();
    for call in calls {
        call.encode(&mut words);
    }
    let (bytes, status) = fed(path, to_bytes(&words))?;
    let mut answers = split(calls, &bytes);
    if !status.success() {
        let trouble = answers.trouble.unwrap_or("all is answered".to_string());
        answers.trouble = Some(format!("{trouble}; the program ended with {status}"));
    }
    Ok(answers)
}

/// What a program writes that reads these bytes, and how it ends.
pub fn fed(path: &Path, bytes: Vec<u8>) -> std::io::Result<(Vec<u8>, ExitStatus)> {
    let mut child = Command::new(path)
        .stdin(Stdio::piped())
        .stdout(Stdio::piped())
        .spawn()?;
    let mut input = child.stdin.take().expect("a piped input");
    let mut output = child.stdout.take().expect("a piped output");
    // A program that ends early closes its input; the missing answers tell that.
    let writer = thread::spawn(move || input.write_all(&bytes).is_ok());
    let mut written = Vec::new();
    output.read_to_end(&mut written)?;
    let status = child.wait()?;
    writer.join().expect("the writer does not panic");
    Ok((written, status))
}

/// The output parted into answers; the whole of it must be used up.
fn split(calls: &[Call], bytes: &[u8]) -> Answers {
    let words = to_words(bytes);
    let mut rest = &words[..];
    let mut answers = Vec::new();
    let mut trouble = None;
    for call in calls {
        match call.take_answer(&mut rest) {
            Some(answer) => answers.push(answer),
            None => break,
        }
    }
    if answers.len() < calls.len() {
        trouble = Some("an answer is missing".to_string());
    } else if !rest.is_empty() || !bytes.len().is_multiple_of(WORD_BYTES) {
        trouble = Some("there is output after the last answer".to_string());
    }
    Answers { answers, trouble }
}

fn difference(call: &Call, expected: &[u32], got: &[u32]) -> Difference {
    Difference {
        calls: vec![call.clone()],
        report: compare(call, expected, got),
    }
}

/// Expected and got, with the first word that differs.
pub fn compare(call: &Call, expected: &[u32], got: &[u32]) -> String {
    let first = (0..expected.len().max(got.len())).find(|&at| expected.get(at) != got.get(at));
    let Some(first) = first else {
        return format!("{}: as expected\n{}", call.name(), show(call, got, 0));
    };
    let word = |words: &[u32]| words.get(first).map_or("none".into(), u32::to_string);
    format!(
        "{}: word {first} of the answer is {}, must be {}\nexpected {}\ngot      {}",
        call.name(),
        word(got),
        word(expected),
        show(call, expected, first),
        show(call, got, first),
    )
}

/// How many of an answer's first words are always shown.
const HEAD: usize = 12;

/// An answer's first words, and some around the one that matters.
fn show(call: &Call, answer: &[u32], around: usize) -> String {
    if let Call::Listing { .. } = call {
        let text = text_of_answer(answer);
        let from = (WORD_BYTES * around).saturating_sub(60);
        let near: String = text.chars().skip(from).take(200).collect();
        return format!("{} bytes, from byte {from}: {near:?}", text.len());
    }
    let head = &answer[..answer.len().min(HEAD)];
    if around < HEAD {
        return format!("{head:?} of {} words", answer.len());
    }
    let from = (around - 4).min(answer.len());
    let near = &answer[from..answer.len().min(around + 8)];
    format!("{head:?} ... from word {from}: {near:?}")
}
