//! The calls of the program under test, as words in and words out.
//!
//! A slice is its length in words, then its words; bytes are their number, then
//! words that hold them, the first byte lowest, the last word filled up with zeros.

use crate::model::action::ACTION_WORDS;

/// Bytes of a word.
pub const WORD_BYTES: usize = 4;

/// The longest slice, listing input and buffer of an agent's call that the program under
/// test takes.
pub const MOST_SLICE_WORDS: usize = 45_100;
pub const MOST_INPUT_BYTES: usize = 52_000;
pub const MOST_LENT_BYTES: usize = 180_300;

/// Number and place are the front of every answer but a listing's and an agent's.
pub const PLACED_WORDS: usize = 2;
/// Where a refusal of a file has its law; three actions follow.
pub const LAW_AT: usize = PLACED_WORDS;
/// Number, place, law and three actions: the front of an answer about a file.
pub const REFUSAL_WORDS: usize = LAW_AT + 1 + 3 * ACTION_WORDS;
/// Operators, atoms and nodes, behind the refusal of a reading.
pub const READ_COUNTS: usize = 3;
/// Where the count of atoms stands among an answer's words.
pub const ATOMS_AT: usize = REFUSAL_WORDS + 1;
/// Where the rows tried stand, behind the action of a scan.
pub const TRIED_AT: usize = PLACED_WORDS + ACTION_WORDS;
/// Where the rows stand that are not hidden, behind their count.
pub const ROWS_AT: usize = PLACED_WORDS + 1;
/// Where an agent's answer has its words, behind the number that is returned and the
/// number of its bytes. The first is the place, then come three values.
pub const TOLD_AT: usize = 2;

#[derive(Clone, PartialEq, Eq, Debug)]
pub enum Call {
    Read {
        file: Vec<u32>,
    },
    Action {
        file: Vec<u32>,
        packet: Vec<u32>,
    },
    Compile {
        file: Vec<u32>,
        table: Vec<u32>,
        scratch: Vec<u32>,
    },
    Scan {
        table: Vec<u32>,
        packet: Vec<u32>,
    },
    Number {
        table: Vec<u32>,
        priorities: Vec<u32>,
        chain: Vec<u32>,
    },
    Listing {
        bytes: Vec<u8>,
    },
    Hidden {
        table: Vec<u32>,
    },
    Capture {
        table: Vec<u32>,
        packets: Vec<u32>,
        answers: Vec<u32>,
    },
    AgentScan {
        table: Vec<u8>,
        packet: Vec<u8>,
        answer: Vec<u8>,
    },
    AgentNumber {
        table: Vec<u8>,
        priorities: Vec<u8>,
        chain: Vec<u8>,
        answer: Vec<u8>,
    },
}

/// Names of the functions, by call code less 1.
pub const NAMES: [&str; FUNCTIONS] = [
    "read",
    "action",
    "compile",
    "scan",
    "number",
    "listing",
    "hidden",
    "capture",
    "agent's scan",
    "agent's number",
];
pub const FUNCTIONS: usize = 10;

impl Call {
    pub fn code(&self) -> u32 {
        match self {
            Call::Read { .. } => 1,
            Call::Action { .. } => 2,
            Call::Compile { .. } => 3,
            Call::Scan { .. } => 4,
            Call::Number { .. } => 5,
            Call::Listing { .. } => 6,
            Call::Hidden { .. } => 7,
            Call::Capture { .. } => 8,
            Call::AgentScan { .. } => 9,
            Call::AgentNumber { .. } => 10,
        }
    }

    pub fn name(&self) -> &'static str {
        NAMES[self.code() as usize - 1]
    }

    pub fn encode(&self, words: &mut Vec<u32>) {
        words.push(self.code());
        let slices: &[&Vec<u32>] = match self {
            Call::Read { file } => &[file],
            Call::Action { file, packet } => &[file, packet],
            Call::Compile {
                file,
                table,
                scratch,
            } => &[file, table, scratch],
            Call::Scan { table, packet } => &[table, packet],
            Call::Number {
                table,
                priorities,
                chain,
            } => &[table, priorities, chain],
            Call::Listing { bytes } => return put_bytes(&[bytes], words),
            Call::Hidden { table } => &[table],
            Call::Capture {
                table,
                packets,
                answers,
            } => &[table, packets, answers],
            Call::AgentScan {
                table,
                packet,
                answer,
            } => return put_bytes(&[table, packet, answer], words),
            Call::AgentNumber {
                table,
                priorities,
                chain,
                answer,
            } => return put_bytes(&[table, priorities, chain, answer], words),
        };
        for slice in slices {
            words.push(slice.len() as u32);
            words.extend_from_slice(slice);
        }
    }

    /// The call at the front of the words, which it is taken from.
    pub fn decode(words: &mut &[u32]) -> Option<Call> {
        let code = take(words, 1)?[0];
        Some(match code {
            1 => Call::Read {
                file: take_slice(words)?,
            },
            2 => Call::Action {
                file: take_slice(words)?,
                packet: take_slice(words)?,
            },
            3 => Call::Compile {
                file: take_slice(words)?,
                table: take_slice(words)?,
                scratch: take_slice(words)?,
            },
            4 => Call::Scan {
                table: take_slice(words)?,
                packet: take_slice(words)?,
            },
            5 => Call::Number {
                table: take_slice(words)?,
                priorities: take_slice(words)?,
                chain: take_slice(words)?,
            },
            6 => Call::Listing {
                bytes: take_bytes(words)?,
            },
            7 => Call::Hidden {
                table: take_slice(words)?,
            },
            8 => Call::Capture {
                table: take_slice(words)?,
                packets: take_slice(words)?,
                answers: take_slice(words)?,
            },
            9 => Call::AgentScan {
                table: take_bytes(words)?,
                packet: take_bytes(words)?,
                answer: take_bytes(words)?,
            },
            10 => Call::AgentNumber {
                table: take_bytes(words)?,
                priorities: take_bytes(words)?,
                chain: take_bytes(words)?,
                answer: take_bytes(words)?,
            },
            _ => return None,
        })
    }

    /// The answer to this call at the front of the words, which it is taken from.
    pub fn take_answer(&self, words: &mut &[u32]) -> Option<Vec<u32>> {
        let length = match self {
            Call::Read { .. } => REFUSAL_WORDS + READ_COUNTS,
            Call::Action { .. } => REFUSAL_WORDS + ACTION_WORDS,
            Call::Compile { table, scratch, .. } => REFUSAL_WORDS + 1 + table.len() + scratch.len(),
            Call::Scan { .. } => TRIED_AT + 1,
            Call::Number {
                priorities, chain, ..
            } => PLACED_WORDS + 1 + priorities.len() + chain.len(),
            Call::Listing { .. } => bytes_words(*words.first()? as usize),
            Call::Hidden { table } => ROWS_AT + table.len(),
            Call::Capture { answers, .. } => PLACED_WORDS + answers.len(),
            Call::AgentScan { answer, .. } => 1 + bytes_words(answer.len()),
            Call::AgentNumber {
                priorities,
                chain,
                answer,
                ..
            } => {
                let lengths = [answer, priorities, chain].map(Vec::len);
                1 + lengths.map(bytes_words).iter().sum::<usize>()
            }
        };
        take(words, length).map(<[u32]>::to_vec)
    }
}

fn take<'a>(words: &mut &'a [u32], count: usize) -> Option<&'a [u32]> {
    let (taken, rest) = words.split_at_checked(count)?;
    *words = rest;
    Some(taken)
}

fn take_slice(words: &mut &[u32]) -> Option<Vec<u32>> {
    let length = take(words, 1)?[0] as usize;
    take(words, length).map(<[u32]>::to_vec)
}

fn take_bytes(words: &mut &[u32]) -> Option<Vec<u8>> {
    let length = take(words, 1)?[0] as usize;
    let mut bytes = to_bytes(take(words, length.div_ceil(WORD_BYTES))?);
    bytes.truncate(length);
    Some(bytes)
}

/// Words that so many bytes take, their number among them.
fn bytes_words(bytes: usize) -> usize {
    1 + bytes.div_ceil(WORD_BYTES)
}

/// Adds each of these bytes as the words that hold them, behind their number.
pub fn put_bytes(all: &[&[u8]], words: &mut Vec<u32>) {
    words.extend(all.iter().flat_map(|bytes| words_of_bytes(bytes)));
}

/// The number of bytes, then the words that hold them.
pub fn words_of_bytes(bytes: &[u8]) -> Vec<u32> {
    let mut words = vec![bytes.len() as u32];
    for four in bytes.chunks(WORD_BYTES) {
        let mut full = [0; WORD_BYTES];
        full[..four.len()].copy_from_slice(four);
        words.push(u32::from_le_bytes(full));
    }
    words
}

/// The buffers in the answer to an agent's call: its own answer, and for a numbering
/// the priorities and the chain.
pub fn buffers_of_answer(answer: &[u32]) -> Vec<Vec<u8>> {
    let mut rest = &answer[1..];
    std::iter::from_fn(|| take_bytes(&mut rest)).collect()
}

/// The text in a listing's answer.
pub fn text_of_answer(mut answer: &[u32]) -> String {
    let bytes = take_bytes(&mut answer).unwrap_or_default();
    String::from_utf8_lossy(&bytes).into_owned()
}

pub fn to_bytes(words: &[u32]) -> Vec<u8> {
    words.iter().flat_map(|word| word.to_le_bytes()).collect()
}

/// All whole words; bytes left over are dropped.
pub fn to_words(bytes: &[u8]) -> Vec<u32> {
    let word = |four: &[u8]| u32::from_le_bytes(four.try_into().expect("four bytes"));
    bytes.chunks_exact(WORD_BYTES).map(word).collect()
}
