//! Actions.

use super::edition::Edition;
use super::Wrong;

/// Kind and rate.
pub const ACTION_WORDS: usize = 2;

/// The largest rate, which no sum goes beyond: the cap.
pub const MOST_RATE: u32 = 100_000_000;

/// The numbers of the kinds.
pub const DONT_CARE: u32 = 0;
pub const ALLOW: u32 = 1;
pub const DENY: u32 = 2;
pub const GMB: u32 = 3;

#[derive(Clone, Copy, PartialEq, Eq, Debug)]
pub enum Action {
    DontCare,
    Allow,
    Deny,
    Gmb(u32),
}

impl Action {
    pub fn read(kind: u32, rate: u32, edition: Edition) -> Result<Action, Wrong> {
        if kind as usize > edition.kinds() {
            return Err(Wrong);
        }
        match (kind, rate) {
            (DONT_CARE, 0) => Ok(Action::DontCare),
            (ALLOW, 0) => Ok(Action::Allow),
            (DENY, 0) => Ok(Action::Deny),
            (GMB, 1..=MOST_RATE) => Ok(Action::Gmb(rate)),
            _ => Err(Wrong),
        }
    }

    pub fn words(self) -> [u32; ACTION_WORDS] {
        match self {
            Action::DontCare => [DONT_CARE, 0],
            Action::Allow => [ALLOW, 0],
            Action::Deny => [DENY, 0],
            Action::Gmb(rate) => [GMB, rate],
        }
    }

    /// The same kind with another rate; of kinds without rates the same action.
    pub fn with_rate(self, rate: u32) -> Action {
        match self {
            Action::Gmb(_) => Action::Gmb(rate),
            _ => self,
        }
    }
}
