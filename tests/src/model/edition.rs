//! The editions of the policy file, and all that depends on one: the words before
//! the first count, the lengths of records, the values, kinds and cells that are
//! known to it, and where its sections stand.

use std::ops::RangeInclusive;

use super::action::Action::{self, Allow, Deny, Gmb};
use super::action::{ACTION_WORDS, GMB};
use super::fields::{Fields, Kind, FIELD_COUNT, KINDS};
use super::operator::{Cells, GIVE_ALLOW, GIVE_RIGHT, GIVE_SUM};

#[derive(Clone, Copy, PartialEq, Eq, Debug)]
pub enum Edition {
    First,
}

/// The edition of the files that the functions read. Packets and rows have the
/// words of its packets and atoms.
pub const NEWEST: Edition = Edition::First;
pub const PACKET_WORDS: usize = NEWEST.packet_words();
pub const ROW_WORDS: usize = NEWEST.atom_words();

/// Limits of the counts.
pub const MOST_OPERATORS: usize = 32;
pub const MOST_ATOMS: usize = 1_024;
pub const MOST_NODES: usize = 256;
pub const MOST_CHILDREN: usize = MOST_NODES - 1;
pub const DEEPEST: usize = 16;

pub const NODE_WORDS: usize = 5;
/// A section's count, before its records.
pub const COUNT_WORDS: usize = 1;
/// Two prefix lengths and the flags, behind a match's values.
const LENGTHS_AND_FLAGS: usize = 3;

impl Edition {
    /// The words before the first count. Each is read as a count that must be it.
    pub const fn header(self) -> &'static [u32] {
        match self {
            Edition::First => &[],
        }
    }

    /// How many kinds of actions have cells: all but don't care.
    pub const fn kinds(self) -> usize {
        match self {
            Edition::First => 3,
        }
    }

    /// Which values packets and matches have.
    pub fn fields(self) -> Fields<bool> {
        match self {
            Edition::First => Fields::from_list([true; FIELD_COUNT]),
        }
    }

    pub const fn packet_words(self) -> usize {
        match self {
            Edition::First => FIELD_COUNT,
        }
    }

    pub const fn match_words(self) -> usize {
        self.packet_words() + LENGTHS_AND_FLAGS
    }

    pub const fn atom_words(self) -> usize {
        self.match_words() + ACTION_WORDS
    }

    /// An operator's words are its cells.
    pub const fn operator_words(self) -> usize {
        self.kinds() * self.kinds()
    }

    /// The flags that constrain a value of this edition, all together.
    pub fn flags(self) -> u32 {
        let flag = |has: bool, kind: Kind| if has { kind.flag() } else { 0 };
        self.fields().both(&KINDS, flag).list().into_iter().sum()
    }

    /// The cell for actions of these kinds, which are not don't care.
    pub fn cell(self, left: u32, right: u32) -> usize {
        (left as usize - 1) * self.kinds() + right as usize - 1
    }

    /// The codes that may stand in a cell.
    pub fn codes(self, cell: usize) -> RangeInclusive<u32> {
        match self {
            Edition::First if cell == self.cell(GMB, GMB) => GIVE_ALLOW..=GIVE_SUM,
            Edition::First => GIVE_ALLOW..=GIVE_RIGHT,
        }
    }

    /// The actions that failures of a law are looked for in.
    pub fn showing(self) -> &'static [Action] {
        match self {
            Edition::First => &[Allow, Deny, Gmb(1), Gmb(2), Gmb(4)],
        }
    }

    /// The cells of the operator with this name.
    pub fn sibling(self) -> Cells {
        match self {
            Edition::First => vec![1, 2, 4, 2, 2, 2, 3, 2, 5],
        }
    }

    pub fn parent(self) -> Cells {
        match self {
            Edition::First => vec![1, 2, 4, 1, 2, 4, 3, 2, 5],
        }
    }

    /// Where the operators' count stands.
    pub const fn operator_count_at(self) -> usize {
        self.header().len()
    }

    /// Where the atoms' count stands.
    pub const fn atom_count_at(self, operators: usize) -> usize {
        self.operator_count_at() + COUNT_WORDS + self.operator_words() * operators
    }

    /// Where the nodes' count stands.
    pub const fn node_count_at(self, operators: usize, atoms: usize) -> usize {
        self.atom_count_at(operators) + COUNT_WORDS + self.atom_words() * atoms
    }

    /// Where the file ends.
    pub const fn end_at(self, operators: usize, atoms: usize, nodes: usize) -> usize {
        self.node_count_at(operators, atoms) + COUNT_WORDS + NODE_WORDS * nodes
    }

    /// Words of the longest file.
    pub const fn most_words(self) -> usize {
        self.end_at(MOST_OPERATORS, MOST_ATOMS, MOST_NODES)
    }
}
