//! The scope once more, as plain Rust. Nothing here is taken from the product:
//! words become ordinary values first (a match is a struct of prefixes, a policy
//! is a real tree), so that a mistake is unlikely to be made twice.

pub mod action;
pub mod agent;
pub mod answers;
pub mod capture;
pub mod edition;
pub mod fields;
pub mod file;
pub mod hidden;
pub mod listing;
pub mod matches;
pub mod notation;
pub mod numbers;
pub mod operator;
pub mod priorities;
pub mod record;
pub mod rows;
pub mod tree;

use operator::Failure;

/// Words that are not in the one right form.
#[derive(Clone, Copy, Debug)]
pub struct Wrong;

/// A refusal: its number, its place, and the broken law where there is one.
#[derive(Clone, Copy, PartialEq, Eq, Debug)]
pub struct Refusal {
    pub number: u32,
    pub place: u32,
    pub failure: Option<Failure>,
}

/// A refusal that names no law.
pub fn refusal(number: u32, place: usize) -> Refusal {
    Refusal {
        number,
        place: place as u32,
        failure: None,
    }
}
