//! The tree's action.

use crate::action::{Action, join, row_action};
use crate::flow::{Packet, meets, right_packet};
use crate::numbers;
use crate::policy::{self, CHILDREN, INNER, OWN, PARENT, Policy, Refusal, SIBLING};

#[inline(never)]
pub fn tree_action(file: &[u32], packet: &[u32]) -> Result<Action, Refusal> {
    let mut left = policy::read(file)?;
    let packet = right_packet(packet).ok_or(policy::refusal(numbers::PACKET, 0))?;
    Ok(subtree(&mut left, packet))
}

/// The action of the first subtree of those left; its nodes and atoms are taken.
fn subtree(left: &mut Policy, packet: &Packet) -> Action {
    let (node, nodes) = left.nodes.split_first().unwrap();
    let (own, atoms) = left.atoms.split_at(node[OWN] as usize);
    left.nodes = nodes;
    left.atoms = atoms;
    let inner = &left.operators[node[INNER] as usize];
    let mut action = Action::DontCare;
    for atom in own.iter().rev() {
        if meets(atom, packet) {
            action = join(inner, row_action(atom), action);
        }
    }
    let theirs = children(left, node[SIBLING], node[CHILDREN], packet);
    join(&left.operators[node[PARENT] as usize], action, theirs)
}

fn children(left: &mut Policy, sibling: u32, count: u32, packet: &Packet) -> Action {
    if count == 0 {
        return Action::DontCare;
    }
    let first = subtree(left, packet);
    let others = children(left, sibling, count - 1, packet);
    join(&left.operators[sibling as usize], first, others)
}
