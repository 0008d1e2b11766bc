//! What `second` does with texts: a test, saved texts again, and answering by the model.

use std::io::{Read, Write};
use std::path::Path;
use std::time::Instant;

use super::program::{compare, Difference, Program};
use super::run;
use crate::calls::{to_words, WORD_BYTES};
use crate::frames::{sent, Frame};
use crate::model::notation::answers::answer;

/// All texts, through the program under test or by the model alone.
pub fn test(program: &Program, seeds: &[u64], out: &Path) -> bool {
    let start = Instant::now();
    let (tally, difference) = run(program, seeds);
    print!("{}", tally.report());
    println!("{:.1} s", start.elapsed().as_secs_f64());
    if let Some(difference) = difference {
        return report(&difference, out);
    }
    let seldom = tally.too_seldom();
    if !seldom.is_empty() {
        println!("FAILED: met too seldom: {}", seldom.join("; "));
        return false;
    }
    println!("all texts answered as expected");
    true
}

/// Prints a difference and saves its frames; a text that stands alone also as it is.
fn report(difference: &Difference, out: &Path) -> bool {
    println!("DIFFERENCE {}", difference.report);
    if difference.frames.is_empty() {
        return false;
    }
    let mut bytes = Vec::new();
    for frame in &difference.frames {
        frame.encode(&mut bytes);
    }
    save(out, &bytes);
    if let [Frame::Text(text) | Frame::Message(text)] = &difference.frames[..] {
        save(&out.with_extension("text"), text);
    }
    false
}

fn save(out: &Path, bytes: &[u8]) {
    match std::fs::write(out, bytes) {
        Ok(()) => println!("it is in {}", out.display()),
        Err(error) => println!("cannot write {}: {error}", out.display()),
    }
}

fn decode(mut bytes: &[u8]) -> Vec<Frame> {
    std::iter::from_fn(|| Frame::decode(&mut bytes)).collect()
}

/// Saved frames again; shows expected and got.
pub fn replay(program: &Program, file: &Path) -> bool {
    let frames = match std::fs::read(file) {
        Ok(bytes) => decode(&bytes),
        Err(error) => {
            println!("cannot read {}: {error}", file.display());
            return false;
        }
    };
    let (answers, trouble) = program.run(&frames);
    let mut good = trouble.is_none();
    for (frame, got) in frames.iter().zip(&answers) {
        let expected = answer(frame);
        good &= expected == *got;
        println!("{}", compare(frame, &expected, got));
    }
    if let Some(trouble) = trouble {
        println!("{trouble}");
    }
    good
}

/// Stands in for the program under test. `spoil` is the frame of which one word of the
/// answer is changed.
pub fn answer_frames(spoil: Option<usize>) -> std::io::Result<()> {
    let mut input = std::io::stdin().lock();
    let mut output = std::io::stdout().lock();
    for place in 0.. {
        let Some(frame) = next_frame(&mut input)? else {
            break;
        };
        let mut answer = answer(&frame);
        if spoil == Some(place) {
            match answer.len() {
                0 => answer.push(1),
                length => answer[place % length] ^= 1,
            }
        }
        output.write_all(&sent(&answer))?;
        output.flush()?;
    }
    Ok(())
}

/// The frame that comes next; none where the input ends, or is no frame.
fn next_frame(input: &mut impl Read) -> std::io::Result<Option<Frame>> {
    let mut bytes = Vec::new();
    let head = 2 * WORD_BYTES;
    input.take(head as u64).read_to_end(&mut bytes)?;
    if let [_, length] = to_words(&bytes)[..] {
        input.take(u64::from(length)).read_to_end(&mut bytes)?;
    }
    Ok(Frame::decode(&mut &bytes[..]))
}
