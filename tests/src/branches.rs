//! A policy as branches, of which the atoms of a node, or its children with all that
//! is below them, are put in another order; and changes that are no such step.

use crate::model::edition::MOST_OPERATORS;
use crate::model::operator::Cells;
use crate::model::record::{Node, RawRow};
use crate::policies::Draft;
use crate::random::Random;
use crate::stock::turned;

/// Kinds of shuffles. Several steps are of one node each.
pub const SHUFFLES: [&str; 4] = [
    "of one node's atoms",
    "of one node's children",
    "of several steps",
    "of the whole file",
];

/// What is no step. All but the last keep the atoms, if not their order.
pub const DAMAGES: [&str; 4] = [
    "an atom moved to another node",
    "children moved without their atoms",
    "a parent's two sides exchanged",
    "an atom in place of another",
];

/// Children are moved up to so many times, until some node has other atoms.
const TRIES: usize = 8;

/// A node, its own atoms, and the branches of its children.
#[derive(Clone)]
struct Branch {
    node: Node,
    atoms: Vec<RawRow>,
    children: Vec<Branch>,
}

impl Branch {
    /// The whole tree of a right draft.
    fn of(draft: &Draft) -> Branch {
        let (mut nodes, mut atoms) = (draft.nodes.iter(), draft.atoms.iter());
        Branch::next(&mut nodes, &mut atoms)
    }

    /// The branch whose node and atoms come next.
    fn next<'a>(
        nodes: &mut impl Iterator<Item = &'a Node>,
        atoms: &mut impl Iterator<Item = &'a RawRow>,
    ) -> Branch {
        let node = *nodes.next().expect("a node for each child");
        Branch {
            node,
            atoms: atoms.take(node.atoms as usize).copied().collect(),
            children: (0..node.children)
                .map(|_| Branch::next(nodes, atoms))
                .collect(),
        }
    }

    /// The branch's nodes and atoms, with operators that they name.
    fn draft(&self, operators: &Draft) -> Draft {
        let mut draft = Draft {
            atoms: vec![],
            nodes: vec![],
            ..operators.clone()
        };
        self.write(&mut draft);
        draft
    }

    /// The counts are of what is there.
    fn write(&self, draft: &mut Draft) {
        draft.nodes.push(Node {
            atoms: self.atoms.len() as u32,
            children: self.children.len() as u32,
            ..self.node
        });
        draft.atoms.extend(&self.atoms);
        for child in &self.children {
            child.write(draft);
        }
    }

    /// A node is changed before its children are visited.
    fn visit(&mut self, change: &mut impl FnMut(&mut Branch)) {
        change(self);
        for child in &mut self.children {
            child.visit(change);
        }
    }

    /// The places, in file order, of the nodes for which this holds.
    fn places(&mut self, holds: impl Fn(&Branch) -> bool) -> Vec<usize> {
        let mut places = Vec::new();
        let mut place = 0;
        self.visit(&mut |branch| {
            if holds(branch) {
                places.push(place);
            }
            place += 1;
        });
        places
    }

    fn change_at(&mut self, changed: usize, mut change: impl FnMut(&mut Branch)) {
        let mut places = 0..;
        self.visit(&mut |branch| {
            if places.next() == Some(changed) {
                change(branch);
            }
        });
    }
}

/// The draft after one step or several, or with every node's atoms and children in
/// another order. Where there is nothing to put in another order it is the same.
pub fn shuffled(random: &mut Random, draft: &Draft, kind: usize) -> Draft {
    let mut tree = Branch::of(draft);
    assert_eq!(tree.draft(draft).words(), draft.words());
    match kind {
        0 => shuffle_atoms(random, &mut tree),
        1 => shuffle_children(random, &mut tree),
        2 => {
            for _ in 0..random.within(2, 7) {
                match random.below(2) {
                    0 => shuffle_atoms(random, &mut tree),
                    _ => shuffle_children(random, &mut tree),
                }
            }
        }
        _ => tree.visit(&mut |branch| {
            shuffle(random, &mut branch.atoms);
            shuffle(random, &mut branch.children);
        }),
    }
    tree.draft(draft)
}

fn shuffle_atoms(random: &mut Random, tree: &mut Branch) {
    let places = tree.places(|branch| branch.atoms.len() > 1);
    if !places.is_empty() {
        let place = random.pick(&places);
        tree.change_at(place, |branch| shuffle(random, &mut branch.atoms));
    }
}

fn shuffle_children(random: &mut Random, tree: &mut Branch) {
    let places = tree.places(|branch| branch.children.len() > 1);
    if !places.is_empty() {
        let place = random.pick(&places);
        tree.change_at(place, |branch| shuffle(random, &mut branch.children));
    }
}

/// Two exchanged, all turned about, the first behind the others, or any order.
fn shuffle<T>(random: &mut Random, list: &mut [T]) {
    if list.len() < 2 {
        return;
    }
    match random.below(4) {
        0 => {
            let (one, two) = two_places(random, list.len());
            list.swap(one, two);
        }
        1 => list.reverse(),
        2 => list.rotate_left(1),
        _ => {
            for end in (1..list.len()).rev() {
                list.swap(end, random.within(0, end));
            }
        }
    }
}

/// Two different places of so many.
fn two_places(random: &mut Random, places: usize) -> (usize, usize) {
    let one = random.below(places);
    (one, (one + random.within(1, places - 1)) % places)
}

/// The draft with a change that is no step, or without one if there is no place for it.
pub fn unlike(random: &mut Random, draft: &Draft, damage: usize) -> Draft {
    let changed = match damage {
        0 => with_atom_moved(random, draft),
        1 => (0..TRIES).find_map(|_| with_children_moved(random, draft)),
        2 => with_sides_exchanged(random, draft),
        _ => with_atom_repeated(random, draft),
    };
    changed.unwrap_or_else(|| draft.clone())
}

fn with_atom_repeated(random: &mut Random, draft: &Draft) -> Option<Draft> {
    if draft.atoms.len() < 2 {
        return None;
    }
    let mut changed = draft.clone();
    let (one, two) = two_places(random, draft.atoms.len());
    changed.atoms[one] = draft.atoms[two];
    Some(changed)
}

fn with_atom_moved(random: &mut Random, draft: &Draft) -> Option<Draft> {
    let mut tree = Branch::of(draft);
    let owners = tree.places(|branch| !branch.atoms.is_empty());
    if owners.is_empty() || draft.nodes.len() < 2 {
        return None;
    }
    let from = random.pick(&owners);
    let to = (from + random.within(1, draft.nodes.len() - 1)) % draft.nodes.len();
    let mut moved = Vec::new();
    tree.change_at(from, |branch| {
        let place = random.below(branch.atoms.len());
        moved.push(branch.atoms.remove(place));
    });
    tree.change_at(to, |branch| {
        let place = random.within(0, branch.atoms.len());
        branch.atoms.extend(&moved);
        branch.atoms[place..].rotate_right(1);
    });
    Some(tree.draft(draft))
}

/// The nodes are shuffled, and take their atoms from the same list: not the same ones.
fn with_children_moved(random: &mut Random, draft: &Draft) -> Option<Draft> {
    let mut tree = Branch::of(draft);
    tree.visit(&mut |branch| shuffle(random, &mut branch.children));
    let atoms = draft.atoms.clone();
    let moved = Draft {
        atoms,
        ..tree.draft(draft)
    };
    let mut counts = moved.nodes.iter().zip(&draft.nodes);
    let same = counts.all(|(one, two)| one.atoms == two.atoms);
    (!same).then_some(moved)
}

/// A node with children gets another parent operator, which joins what the old one
/// would join with the two sides exchanged.
fn with_sides_exchanged(random: &mut Random, draft: &Draft) -> Option<Draft> {
    let parents: Vec<usize> = (0..draft.nodes.len())
        .filter(|node| draft.nodes[*node].children > 0)
        .collect();
    if parents.is_empty() || draft.operators.len() == MOST_OPERATORS {
        return None;
    }
    let mut changed = draft.clone();
    let node = &mut changed.nodes[random.pick(&parents)];
    let old: &Cells = &draft.operators[node.parent as usize];
    node.parent = draft.operators.len() as u32;
    changed.operators.push(turned(draft.edition, old));
    Some(changed)
}
