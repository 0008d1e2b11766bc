//! Operators and their laws.

use super::action::Action::{self, Allow, Deny, DontCare, Gmb};
use super::action::{GMB, MOST_RATE};
use super::edition::Edition;

/// The codes of cells, by what they give. The last three are of rates.
pub const GIVE_ALLOW: u32 = 1;
pub const GIVE_DENY: u32 = 2;
pub const GIVE_LEFT: u32 = 3;
pub const GIVE_RIGHT: u32 = 4;
pub const GIVE_LARGER: u32 = 5;
pub const GIVE_SMALLER: u32 = 6;
pub const GIVE_SUM: u32 = 7;

/// The codes of an operator's cells, the left action's kind slowest.
pub type Cells = Vec<u32>;

#[derive(Clone, PartialEq, Eq, Debug)]
pub struct Operator {
    edition: Edition,
    cells: Cells,
}

#[derive(Clone, Copy, PartialEq, Eq, Debug)]
pub enum Law {
    Commutativity,
    Associativity,
}

/// A broken law and the actions that show it (don't care as third for a pair).
#[derive(Clone, Copy, PartialEq, Eq, Debug)]
pub struct Failure {
    pub law: Law,
    pub actions: [Action; 3],
}

impl Operator {
    /// An operator of right codes.
    pub fn new(cells: &[u32], edition: Edition) -> Operator {
        let cells = cells.to_vec();
        Operator { edition, cells }
    }

    pub fn join(&self, left: Action, right: Action) -> Action {
        if left == DontCare {
            return right;
        }
        if right == DontCare {
            return left;
        }
        // The sum, which has no arm below.
        if let Some(sum) = self.uncut_sum(left, right) {
            return Gmb(sum.min(u64::from(MOST_RATE)) as u32);
        }
        let ([kind, rate], [other_kind, other_rate]) = (left.words(), right.words());
        match self.cells[self.edition.cell(kind, other_kind)] {
            GIVE_ALLOW => Allow,
            GIVE_DENY => Deny,
            GIVE_LEFT => left,
            GIVE_RIGHT => right,
            GIVE_LARGER => left.with_rate(rate.max(other_rate)),
            GIVE_SMALLER => left.with_rate(rate.min(other_rate)),
            code => unreachable!("cell code {code} was let through"),
        }
    }

    /// The sum of two rates where the cell gives it, not cut off at the cap.
    pub fn uncut_sum(&self, left: Action, right: Action) -> Option<u64> {
        let (Gmb(rate), Gmb(other_rate)) = (left, right) else {
            return None;
        };
        let sums = self.cells[self.edition.cell(GMB, GMB)] == GIVE_SUM;
        sums.then_some(u64::from(rate) + u64::from(other_rate))
    }

    /// The first failure: all pairs for commutativity, then all triples for associativity.
    pub fn first_failure(&self) -> Option<Failure> {
        self.unequal_pair().or_else(|| self.unequal_triple())
    }

    fn unequal_pair(&self) -> Option<Failure> {
        let showing = self.edition.showing();
        for &a in showing {
            for &b in showing {
                if !self.commutes(a, b) {
                    return Some(Failure {
                        law: Law::Commutativity,
                        actions: [a, b, DontCare],
                    });
                }
            }
        }
        None
    }

    fn unequal_triple(&self) -> Option<Failure> {
        let showing = self.edition.showing();
        for &a in showing {
            for &b in showing {
                for &c in showing {
                    if !self.associates(a, b, c) {
                        return Some(Failure {
                            law: Law::Associativity,
                            actions: [a, b, c],
                        });
                    }
                }
            }
        }
        None
    }

    pub fn commutes(&self, a: Action, b: Action) -> bool {
        self.join(a, b) == self.join(b, a)
    }

    pub fn associates(&self, a: Action, b: Action, c: Action) -> bool {
        self.join(self.join(a, b), c) == self.join(a, self.join(b, c))
    }
}
