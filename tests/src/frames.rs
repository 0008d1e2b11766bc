//! The frames of the program `texts`: a kind, a length in bytes, and so many bytes.

use crate::calls::{to_bytes, to_words, WORD_BYTES};

#[derive(Clone, PartialEq, Eq, Debug)]
pub enum Frame {
    /// A text to read.
    Text(Vec<u8>),
    /// The words of a policy file, whose canonical text is wanted.
    File(Vec<u32>),
    /// A text whose message is wanted.
    Message(Vec<u8>),
    /// A text to read some times over; the quickest time is wanted.
    Time(Vec<u8>),
}

pub const TEXT: u32 = 1;
pub const FILE: u32 = 2;
pub const MESSAGE: u32 = 3;
pub const TIME: u32 = 4;

impl Frame {
    pub fn name(&self) -> &'static str {
        match self {
            Frame::Text(_) => "a text",
            Frame::File(_) => "a file's canonical text",
            Frame::Message(_) => "a text's message",
            Frame::Time(_) => "the time of a text",
        }
    }

    /// What is sent behind kind and length.
    pub fn content(&self) -> Vec<u8> {
        match self {
            Frame::Text(text) | Frame::Message(text) | Frame::Time(text) => text.clone(),
            Frame::File(file) => to_bytes(file),
        }
    }

    pub fn encode(&self, bytes: &mut Vec<u8>) {
        let kind = match self {
            Frame::Text(_) => TEXT,
            Frame::File(_) => FILE,
            Frame::Message(_) => MESSAGE,
            Frame::Time(_) => TIME,
        };
        let content = self.content();
        bytes.extend(to_bytes(&[kind, content.len() as u32]));
        bytes.extend(content);
    }

    /// The frame at the front of the bytes, which it is taken from.
    pub fn decode(bytes: &mut &[u8]) -> Option<Frame> {
        let kind = take_word(bytes)?;
        let length = take_word(bytes)? as usize;
        let content = take(bytes, length)?;
        match kind {
            TEXT => Some(Frame::Text(content.to_vec())),
            FILE => Some(Frame::File(to_words(content))),
            MESSAGE => Some(Frame::Message(content.to_vec())),
            TIME => Some(Frame::Time(content.to_vec())),
            _ => None,
        }
    }
}

/// An answer as it is sent: the number of its words, and these.
pub fn sent(answer: &[u32]) -> Vec<u8> {
    to_bytes(&[&[answer.len() as u32], answer].concat())
}

/// The answer at the front of the bytes, which it is taken from.
pub fn take_answer(bytes: &mut &[u8]) -> Option<Vec<u32>> {
    let length = take_word(bytes)? as usize;
    take(bytes, WORD_BYTES * length).map(to_words)
}

fn take_word(bytes: &mut &[u8]) -> Option<u32> {
    let word = take(bytes, WORD_BYTES)?;
    Some(to_words(word)[0])
}

fn take<'a>(bytes: &mut &'a [u8], count: usize) -> Option<&'a [u8]> {
    let (taken, rest) = bytes.split_at_checked(count)?;
    *bytes = rest;
    Some(taken)
}
