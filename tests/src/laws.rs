//! The search for broken laws looks at a few actions only. Here every operator
//! that it lets through is tried at other rates, all of them are counted, and the
//! sample of operators is held against what it is drawn for.

use crate::model::action::{Action, GMB, MOST_RATE};
use crate::model::edition::{Edition, NEWEST};
use crate::model::operator::{Cells, Law, Operator, GIVE_ALLOW};
use crate::random::Random;
use crate::stock::{all, operator, sample_size, Stock, SYMMETRIC};
use crate::sums::{lacking, NEAR_THE_CAP};

const TRIES: usize = 300;

/// The operators of right codes in the first edition, and how many of them keep the laws
/// by their code for two GMBs, 1 to 7.
const RIGHT: usize = 458_752;
const LAWFUL: [usize; 7] = [1_164, 1_164, 0, 0, 2_712, 2_712, 2_712];

/// What is amiss with the numbers of all operators and of lawful ones.
pub fn count_fault() -> Option<String> {
    let edition = Edition::First;
    let count = all(edition).unwrap_or(0);
    let mut operators: Vec<Cells> = (0..count).map(|at| operator(edition, at)).collect();
    operators.sort();
    operators.dedup();
    if operators.len() != RIGHT {
        return Some(format!(
            "{} operators are tried, must be {RIGHT}",
            operators.len()
        ));
    }
    let mut lawful = [0; LAWFUL.len()];
    for cells in Stock::new(edition).lawful {
        lawful[(cells[edition.cell(GMB, GMB)] - GIVE_ALLOW) as usize] += 1;
    }
    (lawful != LAWFUL).then(|| format!("lawful operators {lawful:?}, must be {LAWFUL:?}"))
}

/// An operator that the search calls lawful and that breaks a law elsewhere: at some
/// rates near the cap, all of which are tried, or at drawn ones.
pub fn unlawful_elsewhere(seed: u64) -> Option<Cells> {
    let mut random = Random::new(seed, 0);
    let mut lawful = Stock::new(NEWEST).lawful;
    lawful.extend(Stock::drawn(NEWEST, &mut random).lawful);
    lawful.into_iter().find(|cells| {
        let operator = Operator::new(cells, NEWEST);
        let breaks = |a, b, c| !operator.commutes(a, b) || !operator.associates(a, b, c);
        let mut drawn = (0..TRIES).map(|_| three_actions(&mut random));
        breaks_near_the_cap(&breaks) || drawn.any(|[a, b, c]| breaks(a, b, c))
    })
}

fn breaks_near_the_cap(breaks: &impl Fn(Action, Action, Action) -> bool) -> bool {
    let rates = NEAR_THE_CAP.map(Action::Gmb);
    let actions = [&[Action::Allow, Action::Deny][..], &rates].concat();
    let with = |a, b| actions.iter().any(|c| breaks(a, b, *c));
    actions.iter().any(|a| actions.iter().any(|b| with(*a, *b)))
}

/// Three actions, of which two rates or all three often make the cap, or nearly.
fn three_actions(random: &mut Random) -> [Action; 3] {
    let [a, b] = [(); 2].map(|_| match random.below(2) {
        0 => random.pick(&NEAR_THE_CAP),
        _ => 1 + random.word() % MOST_RATE,
    });
    let summed = random.within(1, 2);
    let c = lacking(random, &[a, b][..summed]);
    [a, b, c].map(|rate| match random.below(6) {
        0 => Action::DontCare,
        1 => Action::Allow,
        2 => Action::Deny,
        _ => Action::Gmb(rate),
    })
}

/// What is amiss with the operators that are drawn with this seed.
pub fn sample_fault(seed: u64) -> Option<&'static str> {
    let mut random = Random::new(seed, 0);
    let stock = Stock::drawn(NEWEST, &mut random);
    if stock.lawful.len() + stock.commutative.len() <= SYMMETRIC {
        return Some("a symmetric operator does not commute");
    }
    let mut laws = Vec::new();
    for _ in 0..sample_size(NEWEST) {
        let cells = stock.sampled(&mut random);
        let mut codes = cells.iter().enumerate();
        if !codes.all(|(cell, code)| NEWEST.codes(cell).contains(code)) {
            return Some("an operator of the sample has a wrong code");
        }
        let failure = Operator::new(&cells, NEWEST).first_failure();
        laws.push(failure.map(|failure| failure.law));
    }
    let wanted = [None, Some(Law::Commutativity), Some(Law::Associativity)];
    if wanted.iter().all(|law| laws.contains(law)) {
        None
    } else {
        Some("the sample does not have lawful operators and breakers of each law")
    }
}
