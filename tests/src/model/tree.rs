//! A policy as a real tree, and the tree's action.

use super::action::Action;
use super::fields::Packet;
use super::file::{Atom, Policy};
use super::operator::Operator;

#[derive(Debug)]
pub struct Tree {
    pub inner: Operator,
    pub parent: Operator,
    pub sibling: Operator,
    pub atoms: Vec<Atom>,
    pub children: Vec<Tree>,
}

impl Tree {
    pub fn build(policy: &Policy) -> Tree {
        let (mut next_node, mut next_atom) = (0, 0);
        build(policy, &mut next_node, &mut next_atom)
    }

    pub fn action(&self, packet: &Packet) -> Action {
        self.folded(packet, &mut Operator::join)
    }

    /// The tree's action, each two actions joined by this function.
    pub fn folded(
        &self,
        packet: &Packet,
        join: &mut impl FnMut(&Operator, Action, Action) -> Action,
    ) -> Action {
        let mut own = Action::DontCare;
        for atom in self.atoms.iter().rev() {
            if atom.matching.is_some_and(|m| m.meets(packet)) {
                own = join(&self.inner, atom.action, own);
            }
        }
        let mut below = Action::DontCare;
        for child in self.children.iter().rev() {
            let action = child.folded(packet, join);
            below = join(&self.sibling, action, below);
        }
        join(&self.parent, own, below)
    }
}

/// The subtree whose root is the next node in the list.
fn build(policy: &Policy, next_node: &mut usize, next_atom: &mut usize) -> Tree {
    let node = policy.nodes[*next_node];
    *next_node += 1;
    let end = *next_atom + node.atoms as usize;
    let atoms = policy.atoms[*next_atom..end].to_vec();
    *next_atom = end;
    let mut children = Vec::new();
    for _ in 0..node.children {
        children.push(build(policy, next_node, next_atom));
    }
    let operator = |index: u32| policy.operators[index as usize].clone();
    Tree {
        inner: operator(node.inner),
        parent: operator(node.parent),
        sibling: operator(node.sibling),
        atoms,
        children,
    }
}
