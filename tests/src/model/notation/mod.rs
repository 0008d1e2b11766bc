//! The notation for policies: reading a text, and the canonical text of a file.
//! Written from docs/NOTATION.md and docs/FORMAT.md alone.

pub mod answers;
pub mod canonical;
pub mod cures;
pub mod faults;
pub mod message;
pub mod nodes;
pub mod reader;
pub mod rules;
pub mod values;
pub mod words;

use super::edition::NEWEST;
use super::operator::Cells;
use super::record::{Node, RawRow};

/// What a text gives. All places are bytes of the text.
#[derive(Clone, PartialEq, Eq, Debug, Default)]
pub struct Written {
    pub operators: Vec<WrittenOperator>,
    pub nodes: Vec<WrittenNode>,
}

#[derive(Clone, PartialEq, Eq, Debug)]
pub struct WrittenOperator {
    pub name: Vec<u8>,
    /// Its name behind `operator`, or where it was put behind the others what uses it.
    pub place: usize,
    pub cells: Cells,
}

#[derive(Clone, PartialEq, Eq, Debug)]
pub struct WrittenNode {
    pub name: Vec<u8>,
    pub place: usize,
    /// The root has 1.
    pub depth: usize,
    pub inner: usize,
    pub sibling: usize,
    pub parent: usize,
    pub rules: Vec<WrittenRule>,
}

#[derive(Clone, PartialEq, Eq, Debug)]
pub struct WrittenRule {
    pub label: Vec<u8>,
    pub place: usize,
    pub atom: RawRow,
}

/// Why a text is none of the notation, and where.
#[derive(Clone, Copy, PartialEq, Eq, Debug)]
pub struct Fault {
    pub number: u32,
    pub place: usize,
    pub more: More,
}

/// What a fault says besides.
#[derive(Clone, Copy, PartialEq, Eq, Debug)]
pub enum More {
    Nothing,
    /// Where the name was given first, or the name of the innermost open node.
    Place(usize),
    /// An operator whose name differs by one byte.
    Near(Option<usize>),
    Prefix {
        address: u32,
        length: u32,
    },
}

impl Written {
    /// The words of the policy file.
    pub fn words(&self) -> Vec<u32> {
        let mut words = NEWEST.header().to_vec();
        words.push(self.operators.len() as u32);
        words.extend(self.operators.iter().flat_map(|one| one.cells.iter()));
        let rules = || self.nodes.iter().flat_map(|node| node.rules.iter());
        words.push(rules().count() as u32);
        words.extend(rules().flat_map(|rule| rule.atom.words(NEWEST)));
        words.push(self.nodes.len() as u32);
        for place in 0..self.nodes.len() {
            words.extend(self.node(place).words());
        }
        words
    }

    /// A node as it stands in a file.
    fn node(&self, place: usize) -> Node {
        let node = &self.nodes[place];
        let below = self.nodes[place + 1..]
            .iter()
            .take_while(|other| other.depth > node.depth);
        let children = below.filter(|other| other.depth == node.depth + 1).count();
        Node {
            inner: node.inner as u32,
            parent: node.parent as u32,
            sibling: node.sibling as u32,
            atoms: node.rules.len() as u32,
            children: children as u32,
        }
    }
}

/// The line and the column of a place, both from 1.
pub fn line_and_column(text: &[u8], place: usize) -> (usize, usize) {
    let before = &text[..place];
    let feeds = before.iter().filter(|byte| **byte == b'\n').count();
    let last = before.iter().rposition(|byte| *byte == b'\n');
    let column = last.map_or(place, |last| place - last - 1) + 1;
    (feeds + 1, column)
}
