//! Texts in the notation: drawn, damaged and at every limit, read by the model and by
//! the program `texts`; and the canonical texts of files.

mod bytes;
pub mod commands;
mod damage;
mod drafts;
mod kept;
mod layout;
mod long;
mod misses;
mod names;
mod pieces;
pub mod program;
mod tally;
mod write;

use std::sync::atomic::{AtomicUsize, Ordering};
use std::sync::Mutex;
use std::thread;

use damage::{damaged, soup};
use drafts::{at_limit, small, LIMITS};
use kept::kept;
use layout::{laid_out, some_layout};
use long::long_text;
use program::{Difference, Program};
use tally::Tally;
use write::written;

use crate::damage::damaged as damaged_file;
use crate::frames::Frame;
use crate::known::notation;
use crate::model::edition::NEWEST;
use crate::model::file::Policy;
use crate::model::notation::answers::answer;
use crate::model::notation::canonical::canonical;
use crate::model::notation::reader::read;
use crate::model::numbers::BROKEN_LAW;
use crate::policies::{Draft, Size};
use crate::random::Random;
use crate::stock::Stock;
use crate::world::World;

const THREADS: usize = 2;
/// Parts of a run, shared out among the seeds, and what each of them has.
const PARTS: usize = 12;
const DRAWN: usize = 300;
const DAMAGED: usize = 1_400;
const SOUPS: usize = 200;
const LONG: usize = 6;
const OF_EACH_LIMIT: usize = 30;
const FILES: usize = 900;
/// Other parts of a run draw from lower streams.
const STREAM: u64 = 1 << 40;

/// All texts, up to the first difference.
pub fn run(program: &Program, seeds: &[u64]) -> (Tally, Option<Difference>) {
    let stock = Stock::new(NEWEST);
    let mut known = Tally::default();
    let first = run_known(program, &mut known).and_then(|()| run_kept(program, &mut known));
    if let Err(difference) = first {
        return (known, Some(difference));
    }
    let next = AtomicUsize::new(0);
    let total = Mutex::new((known, None));
    let work = || loop {
        let part = next.fetch_add(1, Ordering::Relaxed);
        if part >= PARTS.next_multiple_of(seeds.len()) {
            break;
        }
        let mut random = Random::new(seeds[part % seeds.len()], STREAM + part as u64);
        let mut tally = Tally::default();
        let found = run_part(program, &mut random, &stock, &mut tally).err();
        if found.is_some() {
            next.store(PARTS * seeds.len(), Ordering::Relaxed);
        }
        let mut total = total.lock().expect("no thread panics");
        total.0.merge(tally);
        total.1 = total.1.take().or(found);
    };
    thread::scope(|scope| {
        for _ in 0..THREADS {
            scope.spawn(work);
        }
    });
    total.into_inner().expect("no thread panics")
}

fn run_known(program: &Program, tally: &mut Tally) -> Result<(), Difference> {
    for case in notation::cases() {
        let (frames, expected) = ([case.frame], [case.answer]);
        let named = |difference: Difference| Difference {
            report: format!("in the known text {}: {}", case.name, difference.report),
            ..difference
        };
        Program::Model
            .check_against(&frames, &expected)
            .map_err(named)?;
        program.check_against(&frames, &expected).map_err(named)?;
        tally.add(&frames[0], &expected[0]);
    }
    Ok(())
}

/// The texts that are kept as files.
fn run_kept(program: &Program, tally: &mut Tally) -> Result<(), Difference> {
    for case in kept()? {
        let named = |difference: Difference| Difference {
            report: format!("in {}: {}", case.name, difference.report),
            ..difference
        };
        Program::Model
            .check_against(&case.frames, &case.expected)
            .map_err(named)?;
        program
            .check_against(&case.frames, &case.expected)
            .map_err(named)?;
        for (frame, answer) in case.frames.iter().zip(&case.expected) {
            tally.add(frame, answer);
        }
    }
    Ok(())
}

fn run_part(
    program: &Program,
    random: &mut Random,
    stock: &Stock,
    tally: &mut Tally,
) -> Result<(), Difference> {
    let mut frames = Vec::new();
    for _ in 0..DRAWN {
        let draft = small(random, stock);
        frames.push(right_text(random, &draft)?);
    }
    for kind in 0..LIMITS * OF_EACH_LIMIT {
        let draft = at_limit(random, stock, kind);
        frames.push(right_text(random, &draft)?);
    }
    for _ in 0..DAMAGED {
        let draft = small(random, stock);
        let pieces = written(random, &draft);
        frames.push(Frame::Text(damaged(random, &pieces)));
    }
    frames.extend((0..SOUPS).map(|_| Frame::Text(soup(random))));
    frames.extend((0..LONG).map(|_| Frame::Text(long_text(random))));
    frames.extend(messages(&frames));
    frames.extend(canonical_texts(random, stock)?);
    check(program, &frames, tally)
}

/// For each text, that its message is wanted.
fn messages(frames: &[Frame]) -> Vec<Frame> {
    let texts = frames.iter().filter_map(|frame| match frame {
        Frame::Text(text) => Some(Frame::Message(text.clone())),
        _ => None,
    });
    texts.collect()
}

/// The frames are answered as the model answers them.
fn check(program: &Program, frames: &[Frame], tally: &mut Tally) -> Result<(), Difference> {
    let expected: Vec<Vec<u32>> = frames.iter().map(answer).collect();
    program.check_against(frames, &expected)?;
    for (frame, answer) in frames.iter().zip(&expected) {
        accepted(frame)?;
        tally.add(frame, answer);
    }
    Ok(())
}

fn text(random: &mut Random, draft: &Draft) -> Frame {
    let layout = some_layout(random);
    let pieces = written(random, draft);
    Frame::Text(laid_out(random, &pieces, layout))
}

/// A text that the model reads as just the words of the draft, if that is within the limits.
fn right_text(random: &mut Random, draft: &Draft) -> Result<Frame, Difference> {
    let frame = text(random, draft);
    let Frame::Text(bytes) = &frame else {
        unreachable!("a text is made");
    };
    let refusal = Policy::read(&draft.words(), NEWEST).err();
    let within = refusal.is_none_or(|refusal| refusal.number == BROKEN_LAW);
    match read(bytes) {
        Ok(written) if written.words() == draft.words() => Ok(frame),
        Err(_) if !within => Ok(frame),
        got => Err(Difference {
            report: format!("the model reads a drawn text as {got:?}"),
            frames: vec![frame],
        }),
    }
}

/// What a text gives is an accepted file, but for a broken law, and its canonical text gives
/// the same words and the same canonical text.
fn accepted(frame: &Frame) -> Result<(), Difference> {
    let Frame::Text(text) = frame else {
        return Ok(());
    };
    let Ok(written) = read(text) else {
        return Ok(());
    };
    let words = written.words();
    let wrong = |report: String| Difference {
        report: format!("the model reads a text {report}"),
        frames: vec![frame.clone()],
    };
    match Policy::read(&words, NEWEST) {
        Err(refusal) if refusal.number != BROKEN_LAW => {
            return Err(wrong(format!("whose file is refused: {refusal:?}")));
        }
        _ => {}
    }
    let canonical = written.text();
    match read(&canonical) {
        Ok(again) if again.words() == words && again.text() == canonical => Ok(()),
        _ => Err(wrong("whose canonical text gives another policy".into())),
    }
}

/// Files, right and damaged, and the canonical texts of the right ones, which the model
/// reads as the same words.
fn canonical_texts(random: &mut Random, stock: &Stock) -> Result<Vec<Frame>, Difference> {
    let mut frames = Vec::new();
    for number in 0..FILES {
        let world = World::tiny(random);
        let size = match number {
            0 => Size::big(random),
            _ => Size::small(random),
        };
        let draft = Draft::random(random, stock, &world, size);
        let words = if random.percent(60) {
            damaged_file(random, stock, &world, &draft)
        } else {
            draft.words()
        };
        let file = Frame::File(words.clone());
        if let Ok(bytes) = canonical(&words) {
            let got = read(&bytes).map(|written| written.words());
            if got.as_ref() != Ok(&words) {
                return Err(Difference {
                    report: "the model reads its canonical text as another file".to_string(),
                    frames: vec![file, Frame::Text(bytes)],
                });
            }
            frames.push(Frame::Text(bytes));
        }
        frames.push(file);
    }
    Ok(frames)
}
