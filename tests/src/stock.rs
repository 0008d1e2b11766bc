//! Operators of right codes, sorted by the laws they keep. While they are few
//! enough all are tried; of more a sample is drawn.

use crate::model::action::GMB;
use crate::model::edition::Edition;
use crate::model::operator::{Cells, Law, Operator, GIVE_LEFT, GIVE_RIGHT, GIVE_SUM};
use crate::random::Random;

/// Up to so many operators are tried one by one.
const MOST_TRIED: usize = 1_000_000;
/// Operators drawn for each seed beside all of them, and in their place.
const SAMPLE_BESIDE: usize = 1_000;
const SAMPLE_INSTEAD: usize = 60_000;
/// Symmetric operators that are drawn and sorted in place of all.
pub const SYMMETRIC: usize = 20_000;
/// Chance in percent that an operator of a policy is made to add rates.
const MADE_TO_ADD: usize = 40;

/// How many operators of this edition have only right codes.
fn count(edition: Edition) -> usize {
    let cells = 0..edition.operator_words();
    cells.map(|cell| edition.codes(cell).count()).product()
}

/// How many there are, if all of them are to be tried.
pub fn all(edition: Edition) -> Option<usize> {
    Some(count(edition)).filter(|count| *count <= MOST_TRIED)
}

/// How many are drawn for each seed.
pub fn sample_size(edition: Edition) -> usize {
    match all(edition) {
        Some(_) => SAMPLE_BESIDE,
        None => SAMPLE_INSTEAD,
    }
}

/// The operator with this index among all of them, the first cell fastest.
pub fn operator(edition: Edition, index: usize) -> Cells {
    let mut rest = index;
    let mut code = |cell: usize| {
        let codes = edition.codes(cell);
        let code = codes.start() + (rest % codes.clone().count()) as u32;
        rest /= codes.count();
        code
    };
    (0..edition.operator_words()).map(&mut code).collect()
}

pub struct Stock {
    pub edition: Edition,
    pub lawful: Vec<Cells>,
    /// Commutative but not associative.
    pub commutative: Vec<Cells>,
}

impl Stock {
    /// Of all operators, or of drawn ones if there are too many.
    pub fn new(edition: Edition) -> Stock {
        match all(edition) {
            Some(count) => Stock::sorted(edition, (0..count).map(|at| operator(edition, at))),
            None => Stock::drawn(edition, &mut Random::new(0, 0)),
        }
    }

    /// Of drawn operators, all commutative, and sibling.
    pub fn drawn(edition: Edition, random: &mut Random) -> Stock {
        let symmetric = (0..SYMMETRIC).map(|_| symmetric(edition, random));
        Stock::sorted(edition, symmetric.chain([edition.sibling()]))
    }

    fn sorted(edition: Edition, operators: impl Iterator<Item = Cells>) -> Stock {
        let (mut lawful, mut commutative) = (Vec::new(), Vec::new());
        for cells in operators {
            let failure = Operator::new(&cells, edition).first_failure();
            match failure.map(|failure| failure.law) {
                None => lawful.push(cells),
                Some(Law::Associativity) => commutative.push(cells),
                Some(Law::Commutativity) => {}
            }
        }
        Stock {
            edition,
            lawful,
            commutative,
        }
    }

    /// An operator of right codes; many add rates.
    pub fn any(&self, random: &mut Random) -> Cells {
        let mut cells = match random.below(10) {
            0 | 1 => self.edition.sibling(),
            2 => self.edition.parent(),
            3..=5 => random.pick(&self.lawful),
            6 => random.pick(&self.commutative),
            _ => self.right(random),
        };
        if random.percent(MADE_TO_ADD) {
            cells[self.edition.cell(GMB, GMB)] = GIVE_SUM;
        }
        cells
    }

    /// One of a sample: symmetric, of any right codes, or lawful but for one cell.
    pub fn sampled(&self, random: &mut Random) -> Cells {
        match random.below(3) {
            0 => symmetric(self.edition, random),
            1 => self.right(random),
            _ => {
                let mut cells = random.pick(&self.lawful);
                let cell = random.below(cells.len());
                cells[cell] = right_code(self.edition, random, cell);
                cells
            }
        }
    }

    /// Any right codes.
    fn right(&self, random: &mut Random) -> Cells {
        operator(self.edition, random.below(count(self.edition)))
    }

    pub fn is_lawful(&self, cells: &Cells) -> bool {
        Operator::new(cells, self.edition).first_failure().is_none()
    }
}

fn right_code(edition: Edition, random: &mut Random, cell: usize) -> u32 {
    let codes: Vec<u32> = edition.codes(cell).collect();
    random.pick(&codes)
}

/// A commutative operator: the cells of two kinds give the same, whichever is left.
fn symmetric(edition: Edition, random: &mut Random) -> Cells {
    let mut cells = vec![0; edition.operator_words()];
    for left in 1..=edition.kinds() as u32 {
        for right in left..=edition.kinds() as u32 {
            let cell = edition.cell(left, right);
            let mut code = right_code(edition, random, cell);
            while left == right && mirrored(code) != code {
                code = right_code(edition, random, cell);
            }
            cells[cell] = code;
            cells[edition.cell(right, left)] = mirrored(code);
        }
    }
    cells
}

/// The operator that gives the same with the two sides changed about.
pub fn turned(edition: Edition, cells: &Cells) -> Cells {
    let mut turned = cells.clone();
    for left in 1..=edition.kinds() as u32 {
        for right in 1..=edition.kinds() as u32 {
            turned[edition.cell(right, left)] = mirrored(cells[edition.cell(left, right)]);
        }
    }
    turned
}

/// The code that gives the same with the two sides changed about.
fn mirrored(code: u32) -> u32 {
    match code {
        GIVE_LEFT => GIVE_RIGHT,
        GIVE_RIGHT => GIVE_LEFT,
        _ => code,
    }
}
