//! Sums of rates, and the cap on them.

use std::cmp::Ordering;

use crate::model::action::Action::{self, Gmb};
use crate::model::action::MOST_RATE;
use crate::model::edition::NEWEST;
use crate::model::fields::Packet;
use crate::model::file::Policy;
use crate::model::tree::Tree;
use crate::random::Random;

const HALF: u32 = MOST_RATE / 2;

/// Rates of which some two make the cap, one less than it, or one more.
pub const NEAR_THE_CAP: [u32; 7] = [1, 2, HALF - 1, HALF, HALF + 1, MOST_RATE - 1, MOST_RATE];

/// Kinds of sums, by how they lie to the cap.
pub const SUMS: [&str; 3] = ["below the cap", "exactly at it", "cut off at it"];
/// Up to so many sums of a tree's action are tried.
const MOST_SUMS: usize = 16;

/// What these rates lack to the cap, or half the time a rate next to it.
pub fn lacking(random: &mut Random, rates: &[u32]) -> u32 {
    let lacking = MOST_RATE.saturating_sub(rates.iter().sum());
    let near = [lacking.saturating_sub(1), lacking, lacking, lacking + 1];
    random.pick(&near).clamp(1, MOST_RATE)
}

/// Which kinds of sums the tree's action rests on: it is another one if a single sum of
/// the kind is one less, or is not cut off. Of many sums only the last ones are tried.
pub fn sums_shown(file: &[u32], packet: &[u32]) -> [bool; SUMS.len()] {
    let mut shown = [false; SUMS.len()];
    let policy = Policy::read(file, NEWEST);
    let (Ok(policy), Ok(packet)) = (policy, Packet::read(packet, NEWEST)) else {
        return shown;
    };
    let tree = policy.tree();
    let mut sums = Vec::new();
    let action = tree.folded(&packet, &mut |operator, left, right| {
        sums.extend(operator.uncut_sum(left, right));
        operator.join(left, right)
    });
    for (place, sum) in sums.iter().enumerate().rev().take(MOST_SUMS) {
        let (kind, other) = match sum.cmp(&u64::from(MOST_RATE)) {
            Ordering::Less => (0, sum - 1),
            Ordering::Equal => (1, sum - 1),
            Ordering::Greater => (2, *sum),
        };
        shown[kind] |= action != with_another(&tree, &packet, place, Gmb(other as u32));
    }
    shown
}

/// The tree's action with another rate for the sum at this place among those made.
fn with_another(tree: &Tree, packet: &Packet, place: usize, other: Action) -> Action {
    let mut places = 0..;
    tree.folded(packet, &mut |operator, left, right| {
        let sum = operator.uncut_sum(left, right);
        match sum.and_then(|_| places.next()) {
            Some(made) if made == place => other,
            _ => operator.join(left, right),
        }
    })
}
