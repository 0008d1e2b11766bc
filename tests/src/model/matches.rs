//! Right packets, and matches: which packets meet one, what two have in common,
//! and whether one lies inside another.

use super::action::Action;
use super::edition::Edition;
use super::fields::{Fields, Kind, Packet, KINDS, WITH_PORTS};
use super::record::RawRow;
use super::Wrong;

/// Bits of a word.
pub const WORD_BITS: u32 = 32;

/// The words that share their first `length` bits with `value`: all words, or
/// one alone, or those between. It is the address that is cut; a number is
/// constrained in all its bits or in none.
#[derive(Clone, Copy, PartialEq, Eq, Debug, Default)]
pub struct Prefix {
    pub value: u32,
    pub length: u32,
}

/// A match that some packet meets. An empty match of either kind is the `None`
/// around it, and the default constrains nothing.
pub type Match = Fields<Prefix>;

impl Packet {
    pub fn read(words: &[u32], edition: Edition) -> Result<Packet, Wrong> {
        if words.len() != edition.packet_words() {
            return Err(Wrong);
        }
        let packet = Packet::from_words(words, edition);
        let mut values = KINDS.pairs(&packet);
        if values.all(|(kind, value)| kind.right(*value)) {
            Ok(packet)
        } else {
            Err(Wrong)
        }
    }
}

impl Prefix {
    pub const fn of(value: u32, length: u32) -> Prefix {
        Prefix { value, length }
    }

    /// This value and no other.
    pub const fn exactly(value: u32) -> Prefix {
        Prefix::of(value, WORD_BITS)
    }

    pub fn constrains(self) -> bool {
        self.length > 0
    }

    /// The word with every bit beyond the prefix cleared.
    fn first_bits(self, word: u32) -> u32 {
        if self.length == 0 {
            0
        } else {
            let beyond = WORD_BITS - self.length;
            word >> beyond << beyond
        }
    }

    fn right(self) -> bool {
        self.length <= WORD_BITS && self.first_bits(self.value) == self.value
    }

    pub fn covers(self, word: u32) -> bool {
        self.first_bits(word) == self.value
    }

    /// Whether both cover some word.
    fn meets(self, other: Prefix) -> bool {
        if self.length <= other.length {
            self.covers(other.value)
        } else {
            other.covers(self.value)
        }
    }

    /// Whether it covers every word that the other covers.
    fn holds(self, other: Prefix) -> bool {
        self.length <= other.length && self.covers(other.value)
    }

    fn longer(self, other: Prefix) -> Prefix {
        if self.length > other.length {
            self
        } else {
            other
        }
    }
}

impl Match {
    /// The match of right words, which is `None` if no packet meets it.
    pub fn read(raw: &RawRow, edition: Edition) -> Result<Option<Match>, Wrong> {
        if *raw == raw.emptied() {
            return Ok(None);
        }
        if raw.flags & !edition.flags() != 0 {
            return Err(Wrong);
        }
        let read = raw.values.both(&constrained_bits(raw), Prefix::of);
        let mut parts = KINDS.pairs(&read);
        let right = parts.all(|(kind, prefix)| kind.right(prefix.value) && prefix.right());
        if right {
            Ok(read.met())
        } else {
            Err(Wrong)
        }
    }

    /// This match and an action as they are written.
    pub fn raw(&self, action: Action) -> RawRow {
        let [kind, rate] = action.words();
        let flag = |kind: Kind, prefix: Prefix| {
            if prefix.constrains() {
                kind.flag()
            } else {
                0
            }
        };
        RawRow {
            values: self.map(|prefix| prefix.value),
            source_length: self.source.length,
            destination_length: self.destination.length,
            flags: KINDS.both(self, flag).list().into_iter().sum(),
            kind,
            rate,
        }
    }

    fn constrains_port(&self) -> bool {
        self.source_port.constrains() || self.destination_port.constrains()
    }

    /// The match, unless it wants a port and a protocol that has none.
    fn met(self) -> Option<Match> {
        let has_ports = WITH_PORTS.iter().any(|one| self.protocol.covers(*one));
        (has_ports || !self.constrains_port()).then_some(self)
    }

    pub fn meets(&self, packet: &Packet) -> bool {
        let mut pairs = self.pairs(packet);
        let covered = pairs.all(|(prefix, value)| prefix.covers(*value));
        covered && (WITH_PORTS.contains(&packet.protocol) || !self.constrains_port())
    }

    /// The match of exactly the packets that meet both, or `None` if there are none.
    pub fn common(&self, other: &Match) -> Option<Match> {
        let mut pairs = self.pairs(other);
        let meet = pairs.all(|(one, two)| one.meets(*two));
        let common = meet.then(|| self.both(other, Prefix::longer));
        common.and_then(Match::met)
    }

    /// Whether every packet that meets the other meets this one. Of matches that
    /// some packet meets the values decide it one by one: where this one wants a
    /// port, the other wants the same.
    pub fn holds(&self, other: &Match) -> bool {
        self.pairs(other).all(|(one, two)| one.holds(*two))
    }
}

/// How many bits of each value are constrained: of a number all or none.
fn constrained_bits(raw: &RawRow) -> Fields<u32> {
    let by_flag = KINDS.map(|kind| match raw.flags & kind.flag() {
        0 => 0,
        _ => WORD_BITS,
    });
    Fields {
        source: raw.source_length,
        destination: raw.destination_length,
        ..by_flag
    }
}
