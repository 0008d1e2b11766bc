//! Buffers of bytes, as an agent lends them: of each word the lowest byte first, at any address.

use std::ops::{Deref, DerefMut};

/// The words of an answer: a place, and three values.
pub const ANSWER_WORDS: usize = 4;

/// What a buffer's address is told from: a multiple of so many bytes.
const ALIGNMENT: usize = 64;

pub fn to_bytes(words: &[u32]) -> Vec<u8> {
    words.iter().flat_map(|word| word.to_le_bytes()).collect()
}

/// The bytes of some words, so many bytes behind an aligned address.
pub struct Bytes {
    held: Vec<u8>,
    from: usize,
}

impl Bytes {
    pub fn of(words: &[u32], behind: usize) -> Bytes {
        let bytes = to_bytes(words);
        let mut held = vec![0; ALIGNMENT + behind + bytes.len()];
        let from = held.as_ptr().align_offset(ALIGNMENT) + behind;
        held.truncate(from + bytes.len());
        held[from..].copy_from_slice(&bytes);
        Bytes { held, from }
    }
}

impl Deref for Bytes {
    type Target = [u8];

    fn deref(&self) -> &[u8] {
        &self.held[self.from..]
    }
}

impl DerefMut for Bytes {
    fn deref_mut(&mut self) -> &mut [u8] {
        &mut self.held[self.from..]
    }
}
