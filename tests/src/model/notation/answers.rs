//! The answers to the frames of the program `texts`, as words.

use std::time::Instant;

use super::canonical::canonical;
use super::message::message;
use super::reader::read;
use super::{line_and_column, Fault, More, Written};
use crate::frames::Frame;
use crate::model::edition::NEWEST;

/// Refusals of a file are told apart from faults of a text by this.
pub const REFUSED: u32 = 100;

/// How often a text is read whose time is wanted.
const READINGS: usize = 200;

/// The answer without the number of its words.
pub fn answer(frame: &Frame) -> Vec<u32> {
    match frame {
        Frame::Text(text) => match read(text) {
            Ok(written) => written.answer(),
            Err(fault) => fault_words(text, &fault),
        },
        Frame::File(file) => match canonical(file) {
            Ok(text) => {
                let mut words = vec![0];
                put_bytes(&text, &mut words);
                words
            }
            Err(refusal) => vec![REFUSED + refusal.number, refusal.place],
        },
        Frame::Message(text) => match read(text) {
            Ok(_) => Vec::new(),
            Err(fault) => bytes_answer(&message(text, &fault)),
        },
        Frame::Time(text) => quickest(text),
    }
}

/// The nanoseconds of the quickest of some readings, the low word first.
fn quickest(text: &[u8]) -> Vec<u32> {
    let readings = (0..READINGS).map(|_| {
        let start = Instant::now();
        let _ = std::hint::black_box(read(text));
        start.elapsed().as_nanos() as u64
    });
    let least = readings.min().unwrap_or(0);
    vec![least as u32, (least >> u32::BITS) as u32]
}

/// The answer that is these bytes alone.
pub fn bytes_answer(bytes: &[u8]) -> Vec<u32> {
    let mut words = Vec::new();
    put_bytes(bytes, &mut words);
    words
}

impl Written {
    fn answer(&self) -> Vec<u32> {
        let mut words = vec![0, self.operators.len() as u32];
        for operator in &self.operators {
            words.push(operator.place as u32);
            put_bytes(&operator.name, &mut words);
            words.extend(&operator.cells);
        }
        words.push(self.nodes.len() as u32);
        for node in &self.nodes {
            words.push(node.place as u32);
            put_bytes(&node.name, &mut words);
            words.push(node.depth as u32);
            words.extend([node.inner, node.sibling, node.parent].map(|index| index as u32));
            words.push(node.rules.len() as u32);
            for rule in &node.rules {
                words.push(rule.place as u32);
                put_bytes(&rule.label, &mut words);
                words.extend(rule.atom.words(NEWEST));
            }
        }
        let file = self.words();
        words.push(file.len() as u32);
        words.extend(file);
        words
    }
}

/// The number of bytes, then one byte a word.
fn put_bytes(bytes: &[u8], words: &mut Vec<u32>) {
    words.push(bytes.len() as u32);
    words.extend(bytes.iter().copied().map(u32::from));
}

/// Number, place, line and column, and what the fault says besides.
pub fn fault_words(text: &[u8], fault: &Fault) -> Vec<u32> {
    let (line, column) = line_and_column(text, fault.place);
    let mut words = vec![fault.number];
    words.extend([fault.place, line, column].map(|one| one as u32));
    match fault.more {
        More::Nothing => {}
        More::Place(place) => words.push(place as u32),
        More::Near(near) => {
            words.push(u32::from(near.is_some()));
            words.push(near.unwrap_or(0) as u32);
        }
        More::Prefix { address, length } => words.extend([address, length]),
    }
    words
}
