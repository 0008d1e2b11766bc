//! Running the program `texts`, or the model in its place, and comparing answers.

use std::path::PathBuf;

use crate::frames::{take_answer, Frame};
use crate::model::notation::answers::answer;
use crate::program::fed;

/// What answers the frames: a program of its own, or the model itself.
pub enum Program {
    Binary(PathBuf),
    Model,
}

/// The frame whose answer is not what it must be.
#[derive(Debug)]
pub struct Difference {
    pub frames: Vec<Frame>,
    pub report: String,
}

impl Program {
    /// Answers in the order of the frames, and what went wrong besides.
    pub fn run(&self, frames: &[Frame]) -> (Vec<Vec<u32>>, Option<String>) {
        let Program::Binary(path) = self else {
            return (frames.iter().map(answer).collect(), None);
        };
        let mut bytes = Vec::new();
        for frame in frames {
            frame.encode(&mut bytes);
        }
        let (output, status) = match fed(path, bytes) {
            Ok(ended) => ended,
            Err(error) => {
                let trouble = format!("cannot run {}: {error}", path.display());
                return (Vec::new(), Some(trouble));
            }
        };
        let mut rest = &output[..];
        let answers: Vec<Vec<u32>> = std::iter::from_fn(|| take_answer(&mut rest))
            .take(frames.len())
            .collect();
        let trouble = if !status.success() {
            Some(format!("the program ended with {status}"))
        } else if answers.len() < frames.len() {
            Some("an answer is missing".to_string())
        } else if !rest.is_empty() {
            Some("there is output after the last answer".to_string())
        } else {
            None
        };
        (answers, trouble)
    }

    /// The first frame that is not answered as expected.
    pub fn check_against(&self, frames: &[Frame], expected: &[Vec<u32>]) -> Result<(), Difference> {
        let (got, trouble) = self.run(frames);
        for ((frame, expected), got) in frames.iter().zip(expected).zip(&got) {
            if expected != got {
                return Err(Difference {
                    frames: vec![frame.clone()],
                    report: compare(frame, expected, got),
                });
            }
        }
        let Some(trouble) = trouble else {
            return Ok(());
        };
        // The program broke off, perhaps with answers held back: look for one frame that
        // alone does it.
        if frames.len() > 1 {
            for place in got.len()..frames.len() {
                self.check_against(&frames[place..=place], &expected[place..=place])?;
            }
        }
        Err(Difference {
            report: format!("{trouble}; {} of {} answered", got.len(), frames.len()),
            frames: frames.to_vec(),
        })
    }
}

/// How many words of an answer are shown, from a few before the one that differs.
const SHOWN: usize = 16;

/// Expected and got, from the first word that differs, and the frame's front.
pub fn compare(frame: &Frame, expected: &[u32], got: &[u32]) -> String {
    let first = (0..expected.len().max(got.len())).find(|&at| expected.get(at) != got.get(at));
    let content = frame.content();
    let front = String::from_utf8_lossy(&content[..content.len().min(400)]).into_owned();
    let Some(first) = first else {
        let shown = &got[..got.len().min(SHOWN)];
        return format!("{}: as expected, {shown:?}\n{front:?}", frame.name());
    };
    let near = |words: &[u32]| {
        let from = first.saturating_sub(4).min(words.len());
        words[from..words.len().min(from + SHOWN)].to_vec()
    };
    let front_of = |words: &[u32]| words[..words.len().min(5)].to_vec();
    format!(
        "{}: word {first} of the answer\nexpected {:?} .. {:?}\ngot      {:?} .. {:?}\n{front:?}",
        frame.name(),
        front_of(expected),
        near(expected),
        front_of(got),
        near(got),
    )
}
