//! The proved program `texts`, which answers frames (tests/README.md, "The frames of `texts`").

use std::io::{Read, Write};
use std::process::{Child, ChildStdin, ChildStdout, Command, Stdio};

use crate::faults::Fault;
use crate::notation::{self, Policy};

const PATH: &str = concat!(env!("CARGO_MANIFEST_DIR"), "/../crates/texts/out/texts");

/// The kinds of frames that are asked.
const READ: u32 = 1;
const TIME: u32 = 4;

/// How many readings a time is the quickest of.
pub const READINGS: usize = 200;

pub struct Program {
    child: Child,
    input: Option<ChildStdin>,
    output: ChildStdout,
}

impl Program {
    pub fn start() -> Program {
        let started = Command::new(PATH).stdin(Stdio::piped()).stdout(Stdio::piped()).spawn();
        let mut child = started.unwrap_or_else(|error| panic!("{PATH}: {error}"));
        let (input, output) = (child.stdin.take(), child.stdout.take().expect("it is piped"));
        Program { child, input, output }
    }

    /// What a text gives.
    pub fn read(&mut self, text: &[u8]) -> Vec<u32> {
        self.answer(READ, text)
    }

    /// The nanoseconds of the quickest reading.
    pub fn time(&mut self, text: &[u8]) -> f64 {
        match self.answer(TIME, text)[..] {
            [low, high] => (u64::from(high) << 32 | u64::from(low)) as f64,
            _ => panic!("a time is two words"),
        }
    }

    fn answer(&mut self, kind: u32, bytes: &[u8]) -> Vec<u32> {
        let input = self.input.as_mut().expect("it is open");
        let head = [kind, bytes.len() as u32].map(u32::to_le_bytes);
        let sent = input
            .write_all(head.as_flattened())
            .and_then(|()| input.write_all(bytes));
        sent.and_then(|()| input.flush()).expect("the program reads");
        let length = self.words(1)[0] as usize;
        self.words(length)
    }

    fn words(&mut self, count: usize) -> Vec<u32> {
        let mut bytes = vec![0; size_of::<u32>() * count];
        self.output.read_exact(&mut bytes).expect("the program answers");
        bytes
            .as_chunks()
            .0
            .iter()
            .map(|word| u32::from_le_bytes(*word))
            .collect()
    }
}

impl Drop for Program {
    fn drop(&mut self) {
        self.input = None;
        let _ = self.child.wait();
    }
}

/// The words that the program answers for what a text gives: all of a policy, or the first two of a fault.
pub fn words_of(read: &Result<Policy, Fault>) -> Vec<u32> {
    let policy = match read {
        Ok(policy) => policy,
        Err(fault) => return vec![fault.reason.number(), fault.at as u32],
    };
    let mut words = vec![0, policy.operators.len() as u32];
    for operator in &policy.operators {
        words.push(operator.at as u32);
        put_bytes(&operator.name, &mut words);
        words.extend(operator.cells);
    }
    words.push(policy.nodes.len() as u32);
    for node in &policy.nodes {
        words.push(node.at as u32);
        put_bytes(&node.name, &mut words);
        let numbers = [node.depth, node.inner, node.sibling, node.parent, node.rules.len()];
        words.extend(numbers.map(|number| number as u32));
        for rule in &node.rules {
            words.push(rule.at as u32);
            put_bytes(&rule.label, &mut words);
            words.extend(rule.row);
        }
    }
    let file = notation::words(policy);
    words.push(file.len() as u32);
    words.extend(file);
    words
}

/// Their number, then one byte a word.
fn put_bytes(bytes: &[u8], words: &mut Vec<u32>) {
    words.push(bytes.len() as u32);
    words.extend(bytes.iter().map(|byte| u32::from(*byte)));
}
