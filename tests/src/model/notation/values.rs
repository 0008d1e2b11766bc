//! Numbers, addresses and prefixes, each a word.

use crate::model::matches::{Prefix, WORD_BITS};

/// Numbers of an address, each of so many bits.
const PARTS: usize = 4;
const PART_BITS: u32 = WORD_BITS / PARTS as u32;
const MOST_PART: u32 = (1 << PART_BITS) - 1;

/// Decimal digits with no zero before other digits, below 2^32.
pub fn number(bytes: &[u8]) -> Option<u32> {
    let digits = !bytes.is_empty() && bytes.iter().all(u8::is_ascii_digit);
    if !digits || bytes.len() > 1 && bytes[0] == b'0' {
        return None;
    }
    std::str::from_utf8(bytes).ok()?.parse().ok()
}

pub fn number_to(bytes: &[u8], most: u32) -> Option<u32> {
    number(bytes).filter(|number| *number <= most)
}

/// The prefix that is written, also where bits are set behind its length.
pub fn prefix(bytes: &[u8]) -> Option<Prefix> {
    let mut halves = bytes.splitn(2, |byte| *byte == b'/');
    let value = address(halves.next()?)?;
    let length = match halves.next() {
        Some(length) => number_to(length, WORD_BITS)?,
        None => WORD_BITS,
    };
    Some(Prefix::of(value, length))
}

fn address(bytes: &[u8]) -> Option<u32> {
    let parts: Option<Vec<u32>> = bytes
        .split(|byte| *byte == b'.')
        .map(|part| number_to(part, MOST_PART))
        .collect();
    let parts = parts.filter(|parts| parts.len() == PARTS)?;
    Some(parts.iter().fold(0, |word, part| word << PART_BITS | part))
}

/// An address as it is written.
pub fn address_text(address: u32) -> String {
    address.to_be_bytes().map(|part| part.to_string()).join(".")
}
