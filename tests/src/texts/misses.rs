//! Words that people write in a place where the notation has another: most have a cure.

use super::pieces::{Pieces, Role};
use crate::random::Random;

const MISSES: [(Role, &[&str]); 16] = [
    (Role::Item, &["Operator", "operators", "2", "{", "nodes"]),
    (Role::OperatorName, &["2nd", "-a", "sum", "a.b", "{"]),
    (Role::TableStart, &["one", "allow", "("]),
    (Role::Cell, &["larger", "sum", "Left", "lef", "2"]),
    (Role::LastCell, &["add", "sums", "Larger", "smaler", "5"]),
    (Role::NodeName, &["7up", "_a", "node", "caf\u{e9}", ":"]),
    (Role::Clause, &["Inside", "belo", "between", "team", "20"]),
    (Role::NodeStart, &["inside", "below", "team", "betwen"]),
    (
        Role::Label,
        &["allow", "in", "port", "10.7.3.9", "443", "operator", "Node"],
    ),
    (
        Role::Action,
        &["40", "any", "tcp", "drop", "Allow", "reserved"],
    ),
    (
        Role::Rate,
        &[
            "40Mbit/s", "8k", "2gb", "40x", "1,000", "2_000", "0.5", "007", "-2",
        ],
    ),
    (
        Role::Unit,
        &["mbit/s", "Mbit", "mb", "G", "kbps", "Kbits/s", "Tbit/s"],
    ),
    (
        Role::Match,
        &["10.7.0.0/16", "port", "443", "}", "Any", "tpc"],
    ),
    (
        Role::Prefix,
        &[
            "any",
            "168230912",
            "443",
            "0443",
            "99999999999",
            "10.0.0.0/33",
            "10.0.0",
            "ports",
            "10.7.3.9/16",
        ],
    ),
    (
        Role::Protocol,
        &["tcp", "icmp", "006", "1,7", "1_7", "256", "gre"],
    ),
    (Role::Port, &["1,000", "27_015", "0443", "65536", "http"]),
];

/// A word of such a kind stands in its place.
pub fn near_miss(random: &mut Random, pieces: &mut Pieces) {
    let there: Vec<(Role, &[&str])> = MISSES
        .into_iter()
        .filter(|(role, _)| !pieces.places(*role).is_empty())
        .collect();
    if there.is_empty() {
        return;
    }
    let (role, words) = random.pick(&there);
    let place = random.pick(&pieces.places(role));
    pieces.0[place].word = random.pick(words).as_bytes().to_vec();
}
