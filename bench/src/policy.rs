//! Reading a policy file.

use crate::action::{self, Action, CELLS, Cells};
use crate::flow::{self, ROW_WORDS, Row};
use crate::numbers;

pub const INNER: usize = 0;
pub const PARENT: usize = 1;
pub const SIBLING: usize = 2;
pub const OWN: usize = 3;
pub const CHILDREN: usize = 4;
pub const NODE_WORDS: usize = CHILDREN + 1;
pub type Node = [u32; NODE_WORDS];

/// The words before the first count; each is read as a count that must be it.
pub const HEADER: [u32; 0] = [];

pub const MOST_OPERATORS: u32 = 32;
pub const MOST_ATOMS: u32 = 1024;
pub const MOST_NODES: u32 = 256;
pub const DEEPEST: usize = 16;

/// An accepted file's sections.
#[derive(Clone, Copy)]
pub struct Policy<'a> {
    pub operators: &'a [Cells],
    pub atoms: &'a [Row],
    pub nodes: &'a [Node],
}

pub struct Refusal {
    pub number: u32,
    pub place: usize,
    pub law: Option<(u32, [Action; 3])>,
}

pub fn refusal(number: u32, place: usize) -> Refusal {
    Refusal {
        number,
        place,
        law: None,
    }
}

#[inline(never)]
pub fn read(file: &[u32]) -> Result<Policy<'_>, Refusal> {
    for (at, &word) in HEADER.iter().enumerate() {
        count(file, at, word, word)?;
    }
    let (operators, at) = operators(file, HEADER.len())?;
    let (atoms, at) = atoms(file, at)?;
    let (nodes, at) = nodes(file, at, operators.len())?;
    if at < file.len() {
        return Err(refusal(numbers::BEHIND, at));
    }
    one_tree(nodes)?;
    if nodes.iter().map(|n| n[OWN] as usize).sum::<usize>() != atoms.len() {
        return Err(refusal(numbers::SUM, 0));
    }
    laws(operators, nodes)?;
    Ok(Policy {
        operators,
        atoms,
        nodes,
    })
}

// The parts of the reading are inlined: apart they are slower by up to a fifth.

/// The records of a section, and the place behind them.
type Section<'a, const N: usize> = Result<(&'a [[u32; N]], usize), Refusal>;

#[inline(always)]
fn operators(file: &[u32], at: usize) -> Section<'_, CELLS> {
    let (operators, end) = section(file, at, 1, MOST_OPERATORS)?;
    for (i, cells) in operators.iter().enumerate() {
        if let Some(j) = action::wrong_cell(cells) {
            return Err(refusal(numbers::CELL, record::<CELLS>(at, i) + j));
        }
    }
    Ok((operators, end))
}

#[inline(always)]
fn atoms(file: &[u32], at: usize) -> Section<'_, ROW_WORDS> {
    let (atoms, end) = section(file, at, 0, MOST_ATOMS)?;
    for (i, atom) in atoms.iter().enumerate() {
        if !flow::right_match(atom) {
            return Err(refusal(numbers::MATCH, record::<ROW_WORDS>(at, i)));
        }
        if !action::right_action(atom) {
            return Err(refusal(numbers::ACTION, record::<ROW_WORDS>(at, i)));
        }
    }
    Ok((atoms, end))
}

#[inline(always)]
fn nodes(file: &[u32], at: usize, operators: usize) -> Section<'_, NODE_WORDS> {
    let (nodes, end) = section(file, at, 1, MOST_NODES)?;
    for (i, node) in nodes.iter().enumerate() {
        let known = |index: u32| (index as usize) < operators;
        let right = known(node[INNER])
            && known(node[PARENT])
            && known(node[SIBLING])
            && node[OWN] <= MOST_ATOMS
            && node[CHILDREN] < MOST_NODES;
        if !right {
            return Err(refusal(numbers::NODE, record::<NODE_WORDS>(at, i)));
        }
    }
    Ok((nodes, end))
}

/// The place of a record, or behind the last one, of the section whose count stands at a place.
fn record<const N: usize>(at: usize, index: usize) -> usize {
    at + 1 + N * index
}

/// The records of the section whose count stands at a place, and the place behind them.
#[inline(always)]
fn section<const N: usize>(file: &[u32], at: usize, least: u32, most: u32) -> Section<'_, N> {
    let end = record::<N>(at, count(file, at, least, most)?);
    let Some(words) = file.get(record::<N>(at, 0)..end) else {
        return Err(refusal(numbers::ENDED, file.len()));
    };
    Ok((words.as_chunks().0, end))
}

#[inline(always)]
fn count(file: &[u32], at: usize, least: u32, most: u32) -> Result<usize, Refusal> {
    let Some(&count) = file.get(at) else {
        return Err(refusal(numbers::ENDED, file.len()));
    };
    if !(least..=most).contains(&count) {
        return Err(refusal(numbers::COUNT, at));
    }
    Ok(count as usize)
}

fn one_tree(nodes: &[Node]) -> Result<(), Refusal> {
    // the children still to come of each node from the root down
    let mut waiting = [0; DEEPEST + 1];
    waiting[0] = 1;
    let mut height = 1;
    for (i, node) in nodes.iter().enumerate() {
        while height > 0 && waiting[height - 1] == 0 {
            height -= 1;
        }
        if height == 0 || height > DEEPEST {
            return Err(refusal(numbers::TREE, i));
        }
        waiting[height - 1] -= 1;
        waiting[height] = node[CHILDREN];
        height += 1;
    }
    if waiting[..height].iter().any(|&w| w != 0) {
        return Err(refusal(numbers::TREE, nodes.len()));
    }
    Ok(())
}

fn laws(operators: &[Cells], nodes: &[Node]) -> Result<(), Refusal> {
    for (i, cells) in operators.iter().enumerate() {
        let named = nodes.iter().any(|n| n[INNER] as usize == i || n[SIBLING] as usize == i);
        if named && let Some(law) = action::broken(cells) {
            return Err(Refusal {
                number: numbers::LAW,
                place: i,
                law: Some(law),
            });
        }
    }
    Ok(())
}
