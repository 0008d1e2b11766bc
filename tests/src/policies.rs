//! Random right policies.

use crate::model::edition::{Edition, DEEPEST, MOST_ATOMS, MOST_NODES, MOST_OPERATORS};
use crate::model::operator::Cells;
use crate::model::record::{Node, RawRow};
use crate::random::Random;
use crate::stock::Stock;
use crate::world::World;

/// The three sections of a policy file before they are written out.
#[derive(Clone)]
pub struct Draft {
    pub edition: Edition,
    pub operators: Vec<Cells>,
    pub atoms: Vec<RawRow>,
    pub nodes: Vec<Node>,
}

#[derive(Clone, Copy)]
pub struct Size {
    pub operators: usize,
    pub atoms: usize,
    pub nodes: usize,
    pub deepest: usize,
}

impl Size {
    /// Few atoms: at most 63 rows, whatever overlaps.
    pub fn small(random: &mut Random) -> Size {
        let most_nodes = random.pick(&[1, 3, 6, 12]);
        let mut size = Size {
            operators: random.pick(&[1, 2, 2, 3, 5]),
            atoms: random.within(0, 6),
            nodes: random.within(1, most_nodes),
            deepest: DEEPEST,
        };
        if random.percent(8) {
            size.nodes = random.within(DEEPEST - 1, DEEPEST + 10);
            let near = [DEEPEST - 1, DEEPEST, DEEPEST, DEEPEST + 1, DEEPEST + 2];
            size.deepest = random.pick(&near);
        }
        if random.percent(1) {
            let near = [MOST_OPERATORS - 1, MOST_OPERATORS, MOST_OPERATORS + 1];
            size.operators = random.pick(&near);
        }
        size
    }

    /// Up to thirteen atoms, which can make 8,191 rows.
    pub fn middling(random: &mut Random) -> Size {
        Size {
            operators: random.within(1, 4),
            atoms: random.within(7, 13),
            nodes: random.within(1, 40),
            deepest: DEEPEST,
        }
    }

    /// At or near the limits of every section.
    pub fn big(random: &mut Random) -> Size {
        Size {
            operators: random.pick(&[1, 2, MOST_OPERATORS - 1, MOST_OPERATORS]),
            atoms: random.pick(&[100, 300, 1_000, MOST_ATOMS - 1, MOST_ATOMS]),
            nodes: random.pick(&[1, 100, MOST_NODES - 1, MOST_NODES]),
            deepest: DEEPEST,
        }
    }

    pub const LARGEST: Size = Size {
        operators: MOST_OPERATORS,
        atoms: MOST_ATOMS,
        nodes: MOST_NODES,
        deepest: DEEPEST,
    };
}

impl Draft {
    pub fn random(random: &mut Random, stock: &Stock, world: &World, size: Size) -> Draft {
        let operators = operators(random, stock, size.operators);
        let lawful: Vec<u32> = (0..operators.len() as u32)
            .filter(|index| stock.is_lawful(&operators[*index as usize]))
            .collect();
        let mut nodes: Vec<Node> = child_counts(random, size.nodes, size.deepest)
            .into_iter()
            .map(|children| Node {
                inner: random.pick(&lawful),
                parent: random.below(operators.len()) as u32,
                sibling: random.pick(&lawful),
                atoms: 0,
                children,
            })
            .collect();
        for _ in 0..size.atoms {
            let owner = random.below(nodes.len());
            nodes[owner].atoms += 1;
        }
        Draft {
            edition: stock.edition,
            operators,
            atoms: (0..size.atoms).map(|_| world.atom(random)).collect(),
            nodes,
        }
    }

    pub fn words(&self) -> Vec<u32> {
        let mut words = self.edition.header().to_vec();
        words.push(self.operators.len() as u32);
        words.extend(self.operators.iter().flatten());
        words.push(self.atoms.len() as u32);
        let atoms = self.atoms.iter();
        words.extend(atoms.flat_map(|atom| atom.words(self.edition)));
        words.push(self.nodes.len() as u32);
        words.extend(self.nodes.iter().flat_map(Node::words));
        words
    }

    /// Where the words before the first count stand, and the three counts.
    pub fn count_words(&self) -> Vec<usize> {
        let (edition, operators) = (self.edition, self.operators.len());
        let mut places: Vec<usize> = (0..edition.operator_count_at()).collect();
        places.push(edition.operator_count_at());
        places.push(edition.atom_count_at(operators));
        places.push(edition.node_count_at(operators, self.atoms.len()));
        places
    }
}

/// Any operators, at least one of them lawful.
fn operators(random: &mut Random, stock: &Stock, count: usize) -> Vec<Cells> {
    let mut operators: Vec<Cells> = (0..count).map(|_| stock.any(random)).collect();
    let sure = random.below(count);
    if !stock.is_lawful(&operators[sure]) {
        operators[sure] = random.pick(&stock.lawful);
    }
    operators
}

/// The child counts of a random tree, parent first. `path` leads from the root
/// to the node before; the next node hangs under some node of it.
fn child_counts(random: &mut Random, nodes: usize, deepest: usize) -> Vec<u32> {
    let mut children = vec![0; nodes];
    let mut path = vec![0];
    let down = random.pick(&[5, 40, 70, 97]);
    for node in 1..nodes {
        while path.len() > 1 && (path.len() >= deepest || !random.percent(down)) {
            path.pop();
        }
        children[path[path.len() - 1]] += 1;
        path.push(node);
    }
    children
}
