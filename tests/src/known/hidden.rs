//! Known cases of hidden rows, and of what stays without them.

use super::{case, open, to, Known};
use crate::calls::Call;
use crate::model::action::Action::{Allow, Deny, DontCare, Gmb};
use crate::model::edition::ROW_WORDS;
use crate::model::fields::{Kind, FIELD_COUNT, KINDS, MOST_PORT};
use crate::model::matches::{Match, Prefix};
use crate::model::numbers::{NOT_A_TABLE, WRONG_ROW};
use crate::model::record::RawRow;
use crate::model::rows::MOST_ROWS;
use crate::tables::table_words;

/// Every value constrained, and for each value another one that is.
const FULL: Match = Match {
    in_port: Prefix::exactly(7),
    source: prefix(10, 0, 0, 0, 8),
    destination: prefix(10, 7, 0, 0, 16),
    protocol: Prefix::exactly(6),
    source_port: Prefix::exactly(80),
    destination_port: Prefix::exactly(443),
};
const OTHER: Match = Match {
    in_port: Prefix::exactly(MOST_PORT),
    source: prefix(11, 0, 0, 0, 8),
    destination: prefix(10, 6, 0, 0, 16),
    protocol: Prefix::exactly(17),
    source_port: Prefix::exactly(0),
    destination_port: Prefix::exactly(442),
};

const fn prefix(a: u8, b: u8, c: u8, d: u8, length: u32) -> Prefix {
    Prefix::of(u32::from_be_bytes([a, b, c, d]), length)
}

pub fn cases() -> Vec<Known> {
    let mut cases = few_rows();
    cases.extend(prefixes());
    cases.extend(value_by_value());
    cases.extend(zeros());
    cases.extend(wrong_tables());
    cases
}

/// A table of which the rows at these places stay.
pub fn pass(name: &'static str, rows: &[RawRow], stay: &[usize]) -> Known {
    let left: Vec<RawRow> = stay.iter().map(|place| rows[*place]).collect();
    let mut table = table_words(&left);
    table.resize(ROW_WORDS * rows.len(), 0);
    let answer = [&[0, 0, stay.len() as u32][..], &table].concat();
    let table = table_words(rows);
    case(name, Call::Hidden { table }, answer)
}

fn few_rows() -> Vec<Known> {
    let (full, other) = (FULL.raw(Allow), OTHER.raw(Allow));
    let repeated = [full, other, full, full, open(Deny)];
    vec![
        pass("no rows", &[], &[]),
        pass("one row", &[full], &[0]),
        pass("one open row", &[open(DontCare)], &[0]),
        pass("a row twice", &[full, full], &[0]),
        pass(
            "one match, other actions",
            &[open(Gmb(1)), open(Deny), open(Gmb(2)), open(DontCare)],
            &[0],
        ),
        pass("a don't care row hides", &[FULL.raw(DontCare), full], &[0]),
        pass(
            "an open row first",
            &[open(Deny), full, other, open(Allow)],
            &[0],
        ),
        pass("nothing hidden", &[full, other, open(Deny)], &[0, 1, 2]),
        pass("hidden rows between", &repeated, &[0, 1, 4]),
    ]
}

fn prefixes() -> Vec<Known> {
    let eight = to(prefix(10, 0, 0, 0, 8), Allow);
    let sixteen = to(prefix(10, 7, 0, 0, 16), Deny);
    let one = |last, length, action| to(prefix(10, 7, 3, last, length), action);
    let halves = [
        to(prefix(10, 0, 0, 0, 9), Deny),
        to(prefix(10, 128, 0, 0, 9), Deny),
        eight,
    ];
    vec![
        pass("a /16 behind its /8", &[eight, sixteen], &[0]),
        pass("a /8 behind its /16", &[sixteen, eight], &[0, 1]),
        pass("a /8 behind its two halves", &halves, &[0, 1, 2]),
        pass(
            "inside a row that goes",
            &[eight, sixteen, one(9, 32, Allow)],
            &[0],
        ),
        pass(
            "inside a row before the last",
            &[sixteen, FULL.raw(Allow), one(9, 32, Allow), eight],
            &[0, 3],
        ),
        pass(
            "to the last bit",
            &[
                one(8, 31, Allow),
                one(9, 32, Deny),
                one(10, 32, Deny),
                one(8, 30, Deny),
            ],
            &[0, 2, 3],
        ),
        pass(
            "one address and the next",
            &[one(8, 32, Allow), one(9, 32, Allow), one(8, 32, Deny)],
            &[0, 1],
        ),
    ]
}

/// Rows that lie inside the first but for one value, which is another or open;
/// and an open row behind one where one value alone is constrained, to 0.
fn value_by_value() -> Vec<Known> {
    const NAMES: [[&str; 2]; FIELD_COUNT] = [
        ["inside but for in-port", "behind in-port 0"],
        ["inside but for source", "behind source 0"],
        ["inside but for destination", "behind destination 0"],
        ["inside but for protocol", "behind protocol 0"],
        ["inside but for source port", "behind source port 0"],
        [
            "inside but for destination port",
            "behind destination port 0",
        ],
    ];
    let mut cases = Vec::new();
    for (place, [but_for, behind]) in NAMES.into_iter().enumerate() {
        let full = FULL.raw(Allow);
        let other = FULL.with(place, *OTHER.list()[place]).raw(Deny);
        let wider = FULL.with(place, Prefix::default()).raw(Deny);
        let zero = match KINDS.list()[place] {
            Kind::Address => prefix(0, 0, 0, 0, 8),
            Kind::Number { .. } => Prefix::exactly(0),
        };
        let zero = Match::default().with(place, zero);
        let zeros = [zero.raw(Allow), open(Deny), zero.raw(Deny)];
        cases.push(pass(but_for, &[full, other, wider, full], &[0, 1, 2]));
        cases.push(pass(behind, &zeros, &[0, 1]));
    }
    cases
}

/// Rows of zeros, which constrain nothing and do not care.
fn zeros() -> Vec<Known> {
    let (full, zero) = (FULL.raw(Allow), RawRow::default());
    vec![
        pass(
            "two rows of zeros behind a row",
            &[full, zero, zero],
            &[0, 1],
        ),
        pass("a row behind zeros", &[zero, full], &[0]),
        pass("the most rows, all zeros", &vec![zero; MOST_ROWS], &[0]),
        pass(
            "the most rows, all open",
            &vec![open(Deny); MOST_ROWS],
            &[0],
        ),
    ]
}

/// Refused tables, of which every word stays.
fn wrong_tables() -> Vec<Known> {
    let refused = |name, number, place, table: Vec<u32>| {
        let answer = [&[number, place, 0][..], &table].concat();
        case(name, Call::Hidden { table }, answer)
    };
    let (full, wide) = (FULL.raw(Allow), open(Deny));
    let mut wrong = full;
    wrong.rate = 1;
    let two_wrong = table_words(&[wide, full, wide, wrong, full, wrong]);
    let empty = table_words(&[full, full, full.emptied()]);
    let over = ROW_WORDS * (MOST_ROWS + 1);
    let long = [&two_wrong[..], &[0]].concat();
    vec![
        refused("12 words", NOT_A_TABLE, 0, vec![0; 12]),
        refused("10 words", NOT_A_TABLE, 0, vec![0; 10]),
        refused("4097 rows of zeros", NOT_A_TABLE, 0, vec![0; over]),
        refused("4097 wrong rows", NOT_A_TABLE, 0, vec![9; over]),
        refused("wrong rows and a word", NOT_A_TABLE, 0, long),
        refused("the first of two wrong rows", WRONG_ROW, 3, two_wrong),
        refused("an empty match", WRONG_ROW, 2, empty),
    ]
}
