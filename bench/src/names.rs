//! Names by hash, each with the place where it stands. The hash is a short one over words of eight bytes, faster than the
//! standard library's own.

use std::collections::HashMap;
use std::hash::{BuildHasherDefault, Hasher};

#[derive(Default)]
pub struct Names<'a>(HashMap<&'a [u8], usize, BuildHasherDefault<Short>>);

impl<'a> Names<'a> {
    /// Puts the name in; the place of an equal one that was there.
    pub fn insert(&mut self, name: &'a [u8], at: usize) -> Option<usize> {
        self.0.insert(name, at)
    }

    pub fn clear(&mut self) {
        self.0.clear();
    }
}

#[derive(Default)]
struct Short(u64);

impl Short {
    fn add(&mut self, word: u64) {
        const ODD: u64 = 0x9e37_79b9_7f4a_7c15;
        self.0 = (self.0.rotate_left(5) ^ word).wrapping_mul(ODD);
    }
}

impl Hasher for Short {
    fn write(&mut self, bytes: &[u8]) {
        let (words, rest) = bytes.as_chunks::<8>();
        for word in words {
            self.add(u64::from_le_bytes(*word));
        }
        let mut last = [0; 8];
        last[..rest.len()].copy_from_slice(rest);
        self.add(u64::from_le_bytes(last));
    }

    fn write_usize(&mut self, length: usize) {
        self.add(length as u64);
    }

    fn finish(&self) -> u64 {
        self.0 ^ self.0 >> 32
    }
}
