//! Drawn policies that are to be written in the notation.

use crate::model::action::{GMB, MOST_RATE};
use crate::model::edition::{DEEPEST, MOST_ATOMS, MOST_NODES, MOST_OPERATORS};
use crate::policies::{Draft, Size};
use crate::random::Random;
use crate::stock::Stock;
use crate::world::World;

/// Kinds of drafts that stand at a limit.
pub const LIMITS: usize = 5;

/// A small policy, all of whose limits are kept but now and then.
pub fn small(random: &mut Random, stock: &Stock) -> Draft {
    let world = match random.below(4) {
        0 => World::wide(random),
        _ => World::tiny(random),
    };
    let size = Size {
        atoms: random.within(0, 16),
        ..Size::small(random)
    };
    let mut draft = Draft::random(random, stock, &world, size);
    if random.percent(50) {
        draft = usual(random, draft);
    }
    round_rates(random, &mut draft);
    draft
}

/// The draft with the two supplied operators behind its own, which most nodes use.
fn usual(random: &mut Random, mut draft: Draft) -> Draft {
    let own = random.below(draft.operators.len().min(MOST_OPERATORS - 2) + 1);
    let supplied = [draft.edition.sibling(), draft.edition.parent()];
    draft.operators.truncate(own);
    draft.operators.extend(supplied);
    let (sibling, parent) = (own as u32, own as u32 + 1);
    for node in &mut draft.nodes {
        let mut use_own = |supplied: u32| {
            if own > 0 && random.percent(20) {
                random.below(own) as u32
            } else {
                supplied
            }
        };
        node.inner = use_own(sibling);
        node.sibling = use_own(sibling);
        node.parent = use_own(parent);
    }
    draft
}

/// Rates that can be written in larger units.
fn round_rates(random: &mut Random, draft: &mut Draft) {
    for atom in draft.atoms.iter_mut().filter(|atom| atom.kind == GMB) {
        let unit = random.pick(&[1, 1, 1_000, 1_000_000]);
        let rounded = atom.rate.min(MOST_RATE / unit) * unit;
        atom.rate = rounded;
    }
}

/// A policy with one count, or its depth, at its limit, or one less or one more.
pub fn at_limit(random: &mut Random, stock: &Stock, kind: usize) -> Draft {
    let world = World::tiny(random);
    let near = |random: &mut Random, limit: usize| {
        random.pick(&[limit - 1, limit, limit + 1, limit + 1, limit + 1])
    };
    let mut size = Size {
        operators: 2,
        atoms: random.below(9),
        nodes: random.within(1, 9),
        deepest: DEEPEST,
    };
    match kind % LIMITS {
        0 => size.operators = near(random, MOST_OPERATORS),
        1 => size.atoms = near(random, MOST_ATOMS),
        2 => size.nodes = near(random, MOST_NODES),
        3 => {
            let depth = near(random, DEEPEST);
            let draft = Draft::random(random, stock, &world, size);
            return deep(random, draft, depth);
        }
        _ => {
            size.operators = MOST_OPERATORS - random.below(3);
            let draft = Draft::random(random, stock, &world, size);
            return with_supplied(random, draft);
        }
    }
    Draft::random(random, stock, &world, size)
}

/// The draft with a supplied operator behind all others, which some node uses, and no
/// other that has its cells.
fn with_supplied(random: &mut Random, mut draft: Draft) -> Draft {
    let supplied = [draft.edition.sibling(), draft.edition.parent()];
    for cells in &mut draft.operators {
        if supplied.contains(cells) {
            *cells = vec![1; cells.len()];
        }
    }
    let added = draft.operators.len() as u32;
    let user = random.below(draft.nodes.len());
    let node = &mut draft.nodes[user];
    if random.percent(50) {
        draft.operators.push(draft.edition.parent());
        node.parent = added;
    } else {
        draft.operators.push(draft.edition.sibling());
        match random.below(2) {
            0 => node.inner = added,
            _ => node.sibling = added,
        }
    }
    draft
}

/// The draft with so deep a chain in place of its nodes, and leaves before the links.
fn deep(random: &mut Random, mut draft: Draft, depth: usize) -> Draft {
    let mut node = draft.nodes[0];
    draft.nodes.clear();
    for link in 1..=depth {
        let leaves = random.below(3) / 2;
        node.atoms = 0;
        node.children = leaves as u32 + u32::from(link < depth);
        draft.nodes.push(node);
        node.children = 0;
        draft.nodes.extend(vec![node; leaves]);
    }
    let owner = random.below(draft.nodes.len());
    draft.nodes[owner].atoms = draft.atoms.len() as u32;
    draft
}
