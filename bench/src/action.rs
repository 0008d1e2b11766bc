//! Actions, operators and the laws.

use crate::flow::{KIND, RATE, Row};

/// Kind and rate.
pub const ACTION_WORDS: usize = 2;

/// Kinds of actions that have cells: all but don't care.
const KINDS: u32 = 3;
pub const CELLS: usize = (KINDS * KINDS) as usize;
pub type Cells = [u32; CELLS];

/// The operators that are supplied by name.
pub const SIBLING: Cells = [1, 2, 4, 2, 2, 2, 3, 2, 5];
pub const PARENT: Cells = [1, 2, 4, 1, 2, 4, 3, 2, 5];

/// As sibling, but two rates are added up.
pub const ADDING: Cells = [1, 2, 4, 2, 2, 2, 3, 2, 7];

/// The numbers of the kinds.
pub const ALLOW: u32 = 1;
pub const DENY: u32 = 2;
pub const GMB: u32 = 3;

pub const MOST_RATE: u32 = 100_000_000;

/// The last code of every cell, and of the cell where both sides are GMBs.
pub const LAST_CODE: u32 = 4;
const LAST_RATE_CODE: u32 = 7;

#[derive(Clone, Copy, Debug, PartialEq)]
pub enum Action {
    DontCare,
    Allow,
    Deny,
    Gmb(u32),
}

use Action::*;

const SHOWING: [Action; 5] = [Allow, Deny, Gmb(1), Gmb(2), Gmb(4)];

pub fn row_action(row: &Row) -> Action {
    match row[KIND] {
        ALLOW => Allow,
        DENY => Deny,
        GMB => Gmb(row[RATE]),
        _ => DontCare,
    }
}

pub fn words(a: Action) -> [u32; ACTION_WORDS] {
    match a {
        DontCare => [0, 0],
        Allow => [ALLOW, 0],
        Deny => [DENY, 0],
        Gmb(rate) => [GMB, rate],
    }
}

pub fn right_action(row: &Row) -> bool {
    match row[KIND] {
        0..=DENY => row[RATE] == 0,
        GMB => (1..=MOST_RATE).contains(&row[RATE]),
        _ => false,
    }
}

pub fn join(cells: &Cells, left: Action, right: Action) -> Action {
    if left == DontCare {
        return right;
    }
    if right == DontCare {
        return left;
    }
    let [k, m] = words(left);
    let [l, n] = words(right);
    match cells[cell(k, l)] {
        1 => Allow,
        2 => Deny,
        3 => left,
        4 => right,
        5 => Gmb(m.max(n)),
        6 => Gmb(m.min(n)),
        7 => Gmb(m.saturating_add(n).min(MOST_RATE)),
        _ => DontCare,
    }
}

/// The cell for a left and a right action of these kinds.
const fn cell(left: u32, right: u32) -> usize {
    ((left - 1) * KINDS + (right - 1)) as usize
}

pub fn wrong_cell(cells: &Cells) -> Option<usize> {
    let last = |i: usize| if i == cell(GMB, GMB) { LAST_RATE_CODE } else { LAST_CODE };
    (0..CELLS).find(|&i| !(1..=last(i)).contains(&cells[i]))
}

/// The law that is broken and the actions that show it: 1 commutativity, 2 associativity.
pub fn broken(cells: &Cells) -> Option<(u32, [Action; 3])> {
    for a in SHOWING {
        for b in SHOWING {
            if join(cells, a, b) != join(cells, b, a) {
                return Some((1, [a, b, DontCare]));
            }
        }
    }
    for a in SHOWING {
        for b in SHOWING {
            for c in SHOWING {
                if join(cells, join(cells, a, b), c) != join(cells, a, join(cells, b, c)) {
                    return Some((2, [a, b, c]));
                }
            }
        }
    }
    None
}
