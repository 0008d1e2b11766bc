//! An independent second program: it tests the product through the program
//! `answers`, which takes calls as words and gives answers as words.

mod agents;
mod branches;
mod calls;
mod captures;
mod cases;
mod damage;
mod frames;
mod known;
mod laws;
mod model;
mod numberings;
mod passes;
mod policies;
mod ports;
mod program;
mod properties;
mod random;
mod sets;
mod shuffles;
mod stock;
mod sums;
mod tables;
mod tally;
mod telling;
mod texts;
mod work;
mod world;

use std::io::{Read, Write};
use std::path::{Path, PathBuf};
use std::process::ExitCode;
use std::time::{Instant, SystemTime};

use calls::{to_bytes, to_words, Call};
use model::answers::answer;
use program::{compare, Difference, Program};
use texts::commands::answer_frames;
use texts::program::Program as Texts;
use work::Plan;

const USAGE: &str = "\
second ANSWERS [--seed N] [--cases N] [--out FILE]   test the program ANSWERS
second ANSWERS --replay FILE                         run a saved case again
second --texts PROGRAM [--seed N] [--out FILE]       test the program PROGRAM, which reads texts
second --texts PROGRAM --replay FILE                 run saved texts again
second --self [--seed N]                             test the model alone
second --answers [--spoil N]                         answer calls by the model
second --texts-answers [--spoil N]                   answer texts by the model";

/// Seeds of every run; a fresh one is added.
const SEEDS: [u64; 2] = [1, 2];
const CASES: usize = 261_000;

struct Options {
    program: Option<PathBuf>,
    seed: Option<u64>,
    cases: usize,
    out: PathBuf,
    replay: Option<PathBuf>,
    itself: bool,
    answers: bool,
    /// The program that reads texts.
    texts: Option<PathBuf>,
    texts_answers: bool,
    spoil: Option<usize>,
}

fn main() -> ExitCode {
    let Some(options) = options(std::env::args().skip(1)) else {
        eprintln!("{USAGE}");
        return ExitCode::from(2);
    };
    let good = match (&options.program, &options.replay) {
        (Some(path), Some(file)) => replay(&Program::Binary(path.clone()), file),
        (Some(path), None) => test(&Program::Binary(path.clone()), &options),
        _ if options.itself => test_model(&options) && test_texts(&Texts::Model, &options),
        _ if options.texts_answers => answer_frames(options.spoil).is_ok(),
        (None, file) if options.texts.is_some() => {
            let program = Texts::Binary(options.texts.clone().unwrap_or_default());
            match file {
                Some(file) => texts::commands::replay(&program, file),
                None => test_texts(&program, &options),
            }
        }
        _ => answer_calls(options.spoil).is_ok(),
    };
    if good {
        ExitCode::SUCCESS
    } else {
        ExitCode::FAILURE
    }
}

fn options(mut words: impl Iterator<Item = String>) -> Option<Options> {
    let mut options = Options {
        program: None,
        seed: None,
        cases: CASES,
        out: std::env::temp_dir().join("second-difference.words"),
        replay: None,
        itself: false,
        answers: false,
        texts: None,
        texts_answers: false,
        spoil: None,
    };
    while let Some(word) = words.next() {
        match word.as_str() {
            "--seed" => options.seed = Some(words.next()?.parse().ok()?),
            "--cases" => options.cases = words.next()?.parse().ok()?,
            "--out" => options.out = words.next()?.into(),
            "--replay" => options.replay = Some(words.next()?.into()),
            "--self" => options.itself = true,
            "--answers" => options.answers = true,
            "--texts" => options.texts = Some(words.next()?.into()),
            "--texts-answers" => options.texts_answers = true,
            "--spoil" => options.spoil = Some(words.next()?.parse().ok()?),
            _ if word.starts_with("--") || options.program.is_some() => return None,
            _ => options.program = Some(word.into()),
        }
    }
    let modes = [
        options.program.is_some(),
        options.itself,
        options.answers,
        options.texts.is_some(),
        options.texts_answers,
    ];
    (modes.iter().filter(|mode| **mode).count() == 1).then_some(options)
}

fn seeds(options: &Options) -> Vec<u64> {
    let seeds = match options.seed {
        Some(seed) => vec![seed],
        None => [&SEEDS[..], &[fresh_seed()]].concat(),
    };
    println!("seeds {seeds:?}");
    seeds
}

fn fresh_seed() -> u64 {
    let now = SystemTime::now().duration_since(SystemTime::UNIX_EPOCH);
    now.map_or(3, |time| time.as_nanos() as u64)
}

/// Everything, through the program under test.
fn test(program: &Program, options: &Options) -> bool {
    let start = Instant::now();
    let plan = Plan::full(&seeds(options), options.cases);
    let (tally, difference) = work::run(program, &plan);
    print!("{}", tally.report());
    println!("{:.1} s", start.elapsed().as_secs_f64());
    if let Some(difference) = difference {
        return report(&difference, &options.out);
    }
    let seldom = tally.too_seldom();
    if !seldom.is_empty() {
        println!("FAILED: met too seldom: {}", seldom.join("; "));
        return false;
    }
    println!("all answers as expected");
    true
}

/// The model alone: the known cases, the properties, how many operators keep the laws,
/// and these at other rates.
fn test_model(options: &Options) -> bool {
    let seeds = seeds(options);
    let plan = Plan::without_cases(&seeds);
    let (tally, difference) = work::run(&Program::Model, &plan);
    print!("{}", tally.report());
    if let Some(difference) = difference {
        return report(&difference, &options.out);
    }
    if let Some(fault) = laws::count_fault() {
        println!("FAILED: {fault}");
        return false;
    }
    for seed in seeds {
        if let Some(cells) = laws::unlawful_elsewhere(seed) {
            println!("FAILED: {cells:?} breaks a law that the search does not see");
            return false;
        }
        if let Some(fault) = laws::sample_fault(seed) {
            println!("FAILED: {fault}");
            return false;
        }
    }
    println!("the model holds");
    true
}

/// Texts in the notation, through the program that reads them.
fn test_texts(program: &Texts, options: &Options) -> bool {
    texts::commands::test(program, &seeds(options), &options.out)
}

/// Prints and saves a difference; the run has failed.
fn report(difference: &Difference, out: &Path) -> bool {
    println!("DIFFERENCE {}", difference.report);
    let mut words = Vec::new();
    for call in &difference.calls {
        call.encode(&mut words);
    }
    match std::fs::write(out, to_bytes(&words)) {
        Ok(()) => println!("its calls are in {}", out.display()),
        Err(error) => println!("cannot write {}: {error}", out.display()),
    }
    false
}

fn replay(program: &Program, file: &Path) -> bool {
    let calls = match std::fs::read(file) {
        Ok(bytes) => decode(&to_words(&bytes)),
        Err(error) => {
            println!("cannot read {}: {error}", file.display());
            return false;
        }
    };
    let got = program.run(&calls);
    let mut good = got.trouble.is_none();
    for (call, got) in calls.iter().zip(&got.answers) {
        let expected = answer(call);
        good &= expected == *got;
        println!("{}", compare(call, &expected, got));
    }
    if let Some(trouble) = got.trouble {
        println!("{trouble}");
    }
    good
}

fn decode(mut words: &[u32]) -> Vec<Call> {
    std::iter::from_fn(|| Call::decode(&mut words)).collect()
}

/// Stands in for the program under test. `--spoil N` changes one word of the
/// answer to the call after N others, to show that a mistake is found.
fn answer_calls(spoil: Option<usize>) -> std::io::Result<()> {
    let mut bytes = Vec::new();
    std::io::stdin().read_to_end(&mut bytes)?;
    let mut output = std::io::stdout().lock();
    for (place, call) in decode(&to_words(&bytes)).iter().enumerate() {
        let mut answer = answer(call);
        if spoil == Some(place) {
            let word = place % answer.len();
            answer[word] ^= 1;
        }
        output.write_all(&to_bytes(&answer))?;
    }
    Ok(())
}
