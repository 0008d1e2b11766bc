//! The two functions of the library, lent slices. All of the package's unsafe code stands here.
//!
//! Each is proved, for every content and length of what is lent, to write nothing but what docs/FORMAT.md says and to
//! do nothing undefined. It asks of its caller that each pointer is good for its length, and that what is written
//! overlaps nothing else; shared and exclusive slices are just that.

use crate::{words, ANSWER_BYTES, PACKET_BYTES};

mod raw {
    extern "C" {
        pub fn agent_scan(
            table: *const u8,
            table_bytes: usize,
            packet: *const u8,
            packet_bytes: usize,
            answer: *mut u8,
            answer_bytes: usize,
        ) -> u32;

        pub fn agent_number(
            table: *const u8,
            table_bytes: usize,
            priorities: *mut u8,
            priority_bytes: usize,
            chain: *mut u8,
            chain_bytes: usize,
            answer: *mut u8,
            answer_bytes: usize,
        ) -> u32;
    }
}

/// What a call returned, and the words of its answer; zeros where it wrote none.
pub(crate) struct Answer {
    pub(crate) number: u32,
    pub(crate) words: [u32; ANSWER_BYTES / 4],
}

pub(crate) fn scan(table: &[u8], packet: &[u8; PACKET_BYTES]) -> Answer {
    let mut bytes = [0; ANSWER_BYTES];
    // SAFETY: table and packet are shared borrows, good for reading as many bytes as they have, and nobody writes them
    // while they are lent. `bytes` is a local array, good for writing, and overlaps neither.
    let number = unsafe {
        raw::agent_scan(
            table.as_ptr(),
            table.len(),
            packet.as_ptr(),
            packet.len(),
            bytes.as_mut_ptr(),
            bytes.len(),
        )
    };
    answer(number, bytes)
}

pub(crate) fn number(table: &[u8], priorities: &mut [u8], chain: &mut [u8]) -> Answer {
    let mut bytes = [0; ANSWER_BYTES];
    // SAFETY: table is a shared slice, good for reading as many bytes as it has, and nobody writes it while it is lent.
    // priorities and chain are exclusive slices, good for writing as many bytes as they have; so they overlap neither
    // each other nor the table. `bytes` is a local array, good for writing, and overlaps none of them.
    let number = unsafe {
        raw::agent_number(
            table.as_ptr(),
            table.len(),
            priorities.as_mut_ptr(),
            priorities.len(),
            chain.as_mut_ptr(),
            chain.len(),
            bytes.as_mut_ptr(),
            bytes.len(),
        )
    };
    answer(number, bytes)
}

fn answer(number: u32, bytes: [u8; ANSWER_BYTES]) -> Answer {
    let mut answer = Answer {
        number,
        words: [0; ANSWER_BYTES / 4],
    };
    for (word, value) in answer.words.iter_mut().zip(words(&bytes)) {
        *word = value;
    }
    answer
}
