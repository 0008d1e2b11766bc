//! Reading a policy file: refusals 1 to 10, in their order.

use std::ops::RangeInclusive;

use super::action::Action;
use super::edition::{
    Edition, COUNT_WORDS, DEEPEST, MOST_ATOMS, MOST_CHILDREN, MOST_NODES, MOST_OPERATORS,
    NODE_WORDS,
};
use super::matches::Match;
use super::numbers::{
    ATOMS_LEFT, BROKEN_LAW, COUNT_BEYOND, ENDS_EARLY, NOT_ONE_TREE, WORDS_AFTER, WRONG_ACTION,
    WRONG_CELL, WRONG_MATCH, WRONG_NODE,
};
use super::operator::Operator;
use super::record::{Node, RawRow};
use super::tree::Tree;
use super::{refusal, Refusal};

/// An atom; `None` is an empty match of either kind.
#[derive(Clone, Copy, Debug)]
pub struct Atom {
    pub matching: Option<Match>,
    pub action: Action,
}

#[derive(Debug)]
pub struct Policy {
    pub operators: Vec<Operator>,
    pub atoms: Vec<Atom>,
    pub nodes: Vec<Node>,
}

impl Policy {
    pub fn read(file: &[u32], edition: Edition) -> Result<Policy, Refusal> {
        for (at, word) in edition.header().iter().enumerate() {
            count(file, at, *word as usize..=*word as usize)?;
        }
        let operators = read_operators(file, edition)?;
        let atoms = read_atoms(file, edition, operators.len())?;
        let nodes = read_nodes(file, edition, operators.len(), atoms.len())?;
        let end = edition.end_at(operators.len(), atoms.len(), nodes.len());
        if file.len() > end {
            return Err(refusal(WORDS_AFTER, end));
        }
        one_tree(&nodes)?;
        if nodes.iter().map(|node| node.atoms as usize).sum::<usize>() != atoms.len() {
            return Err(refusal(ATOMS_LEFT, 0));
        }
        keep_laws(&operators, &nodes)?;
        Ok(Policy {
            operators,
            atoms,
            nodes,
        })
    }

    pub fn tree(&self) -> Tree {
        Tree::build(self)
    }
}

/// The count that stands at a word.
fn count(file: &[u32], at: usize, limits: RangeInclusive<usize>) -> Result<usize, Refusal> {
    let count = *file.get(at).ok_or(refusal(ENDS_EARLY, file.len()))? as usize;
    if limits.contains(&count) {
        Ok(count)
    } else {
        Err(refusal(COUNT_BEYOND, at))
    }
}

/// The records of the section whose count stands at a word, each with its place.
/// The count is tested first, then whether the whole section is there.
fn section(
    file: &[u32],
    at: usize,
    limits: RangeInclusive<usize>,
    record: usize,
) -> Result<Vec<(usize, &[u32])>, Refusal> {
    let count = count(file, at, limits)?;
    let start = at + COUNT_WORDS;
    let words = file.get(start..start + count * record);
    let words = words.ok_or(refusal(ENDS_EARLY, file.len()))?;
    let places = (start..).step_by(record);
    Ok(places.zip(words.chunks(record)).collect())
}

fn read_operators(file: &[u32], edition: Edition) -> Result<Vec<Operator>, Refusal> {
    let mut operators = Vec::new();
    let at = edition.operator_count_at();
    for (place, cells) in section(file, at, 1..=MOST_OPERATORS, edition.operator_words())? {
        for (cell, code) in cells.iter().enumerate() {
            if !edition.codes(cell).contains(code) {
                return Err(refusal(WRONG_CELL, place + cell));
            }
        }
        operators.push(Operator::new(cells, edition));
    }
    Ok(operators)
}

fn read_atoms(file: &[u32], edition: Edition, operators: usize) -> Result<Vec<Atom>, Refusal> {
    let mut atoms = Vec::new();
    let at = edition.atom_count_at(operators);
    for (place, words) in section(file, at, 0..=MOST_ATOMS, edition.atom_words())? {
        let raw = RawRow::from_words(words, edition);
        let matching = Match::read(&raw, edition).map_err(|_| refusal(WRONG_MATCH, place))?;
        let action = Action::read(raw.kind, raw.rate, edition);
        let action = action.map_err(|_| refusal(WRONG_ACTION, place))?;
        atoms.push(Atom { matching, action });
    }
    Ok(atoms)
}

fn read_nodes(
    file: &[u32],
    edition: Edition,
    operators: usize,
    atoms: usize,
) -> Result<Vec<Node>, Refusal> {
    let mut nodes = Vec::new();
    let at = edition.node_count_at(operators, atoms);
    for (place, words) in section(file, at, 1..=MOST_NODES, NODE_WORDS)? {
        let node = Node::from_words(words);
        let known = |index: u32| (index as usize) < operators;
        let right = [node.inner, node.parent, node.sibling]
            .into_iter()
            .all(known)
            && node.atoms as usize <= MOST_ATOMS
            && node.children as usize <= MOST_CHILDREN;
        if !right {
            return Err(refusal(WRONG_NODE, place));
        }
        nodes.push(node);
    }
    Ok(nodes)
}

/// Refusal 8. `waiting` has, for each node from the root down to the last one
/// seen, how many of its children are still to come.
fn one_tree(nodes: &[Node]) -> Result<(), Refusal> {
    let mut waiting: Vec<u32> = Vec::new();
    for (index, node) in nodes.iter().enumerate() {
        drop_served(&mut waiting);
        if index > 0 {
            let Some(children) = waiting.last_mut() else {
                return Err(refusal(NOT_ONE_TREE, index));
            };
            *children -= 1;
        }
        let depth = waiting.len() + 1;
        if depth > DEEPEST {
            return Err(refusal(NOT_ONE_TREE, index));
        }
        waiting.push(node.children);
    }
    drop_served(&mut waiting);
    if waiting.is_empty() {
        Ok(())
    } else {
        Err(refusal(NOT_ONE_TREE, nodes.len()))
    }
}

/// Nodes at the end that wait for no more children are done.
fn drop_served(waiting: &mut Vec<u32>) {
    while waiting.last() == Some(&0) {
        waiting.pop();
    }
}

/// Refusal 10: the operators that some node names as inner or sibling, by index.
fn keep_laws(operators: &[Operator], nodes: &[Node]) -> Result<(), Refusal> {
    for (index, operator) in operators.iter().enumerate() {
        let named = |node: &Node| [node.inner, node.sibling].contains(&(index as u32));
        if !nodes.iter().any(named) {
            continue;
        }
        if let Some(failure) = operator.first_failure() {
            return Err(Refusal {
                failure: Some(failure),
                ..refusal(BROKEN_LAW, index)
            });
        }
    }
    Ok(())
}
