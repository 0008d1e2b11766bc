//! Records as they are written: numbers by name, right or wrong. Where each
//! stands among a record's words is said here only.

use super::edition::{Edition, NODE_WORDS};
use super::fields::Packet;

/// The flag that makes a match empty and stands alone.
pub const EMPTY: u32 = 16;

/// An atom or a row.
#[derive(Clone, Copy, PartialEq, Eq, Debug, Default)]
pub struct RawRow {
    pub values: Packet,
    pub source_length: u32,
    pub destination_length: u32,
    pub flags: u32,
    pub kind: u32,
    pub rate: u32,
}

/// A node: three operators by index, and how many atoms and children it has.
#[derive(Clone, Copy, PartialEq, Eq, Debug, Default)]
pub struct Node {
    pub inner: u32,
    pub parent: u32,
    pub sibling: u32,
    pub atoms: u32,
    pub children: u32,
}

impl Packet {
    /// The values from a packet's words; one that the edition has not is 0.
    pub fn from_words(words: &[u32], edition: Edition) -> Packet {
        let mut words = words.iter();
        let mut next = || *words.next().expect("a word for each value");
        edition.fields().map(|has| if has { next() } else { 0 })
    }

    pub fn words(&self, edition: Edition) -> Vec<u32> {
        let fields = edition.fields();
        let had = fields.pairs(self).filter(|(has, _)| **has);
        had.map(|(_, value)| *value).collect()
    }
}

impl RawRow {
    pub fn from_words(words: &[u32], edition: Edition) -> RawRow {
        let (values, rest) = words.split_at(edition.packet_words());
        let &[source_length, destination_length, flags, kind, rate] = rest else {
            panic!("{} words are no row", words.len());
        };
        RawRow {
            values: Packet::from_words(values, edition),
            source_length,
            destination_length,
            flags,
            kind,
            rate,
        }
    }

    pub fn words(&self, edition: Edition) -> Vec<u32> {
        let mut words = self.values.words(edition);
        words.extend([self.source_length, self.destination_length, self.flags]);
        words.extend([self.kind, self.rate]);
        words
    }

    /// The same action with a match of zeros and the flag `EMPTY`.
    pub fn emptied(&self) -> RawRow {
        RawRow {
            flags: EMPTY,
            kind: self.kind,
            rate: self.rate,
            ..RawRow::default()
        }
    }
}

impl Node {
    pub fn from_words(words: &[u32]) -> Node {
        let &[inner, parent, sibling, atoms, children] = words else {
            panic!("{} words are no node", words.len());
        };
        Node {
            inner,
            parent,
            sibling,
            atoms,
            children,
        }
    }

    pub fn words(&self) -> [u32; NODE_WORDS] {
        [
            self.inner,
            self.parent,
            self.sibling,
            self.atoms,
            self.children,
        ]
    }
}
