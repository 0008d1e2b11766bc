//! Known cases at the limits: rooms that are just full, and large sums.

use super::{case, chain_of_nodes, listing, node, one_node, open, refused, success, Known};
use crate::calls::{to_bytes, Call, MOST_SLICE_WORDS, READ_COUNTS};
use crate::model::action::Action::Deny;
use crate::model::edition::{MOST_ATOMS, MOST_NODES, NEWEST, ROW_WORDS};
use crate::model::matches::{Match, Prefix};
use crate::model::numbers::{ATOMS_LEFT, MORE_ROWS};
use crate::model::record::RawRow;
use crate::model::rows::MOST_ROWS;
use crate::tables::table_words;

/// Words of the most rows.
const LARGEST_ROOM: usize = ROW_WORDS * MOST_ROWS;

pub fn cases() -> Vec<Known> {
    let mut cases = doubling();
    cases.extend(full_rooms());
    cases.push(most_priorities());
    cases.extend(large_sums());
    cases
}

/// A Deny atom for one in-port; atoms of different in-ports do not overlap.
fn at_port(in_port: u32) -> RawRow {
    let (in_port, open) = (Prefix::exactly(in_port), Match::default());
    Match { in_port, ..open }.raw(Deny)
}

/// A compile in the largest room, with so many more words in the table.
fn in_largest_room(file: Vec<u32>, more: usize) -> Call {
    Call::Compile {
        file,
        table: vec![3; LARGEST_ROOM + more],
        scratch: vec![4; LARGEST_ROOM],
    }
}

/// One node of k atoms that all overlap has 2^k - 1 rows, all overlapping. The
/// listing has the first of them only, and yet needs room for all.
fn doubling() -> Vec<Known> {
    let file = |atoms: usize| one_node(&vec![open(Deny); atoms]);
    let text = "rows 1 priorities 1\n1 * 0.0.0.0/0 0.0.0.0/0 * * * deny\n";
    let rows = table_words(&vec![open(Deny); 4_095]);
    let twelve = [&[4_095][..], &rows, &[0; ROW_WORDS], &[0; LARGEST_ROOM]].concat();
    let thirteen = refused(MORE_ROWS, 0, 1 + 2 * LARGEST_ROOM);
    vec![
        listing("10 open atoms listed", &to_bytes(&file(10)), text),
        listing(
            "11 open atoms listed",
            &to_bytes(&file(11)),
            "refused 12 0\n",
        ),
        case(
            "12 open atoms",
            in_largest_room(file(12), 0),
            success(&twelve),
        ),
        case("13 open atoms", in_largest_room(file(13), 0), thirteen),
    ]
}

/// Rooms that are used to the last row, and one row too few of them.
fn full_rooms() -> Vec<Known> {
    let file =
        |atoms: usize, others: &[RawRow]| one_node(&[&vec![at_port(1); atoms], others].concat());
    let few = "rows 2 priorities 1\n\
        1 1 0.0.0.0/0 0.0.0.0/0 * * * deny\n\
        1 2 0.0.0.0/0 0.0.0.0/0 * * * deny\n";
    let apart: Vec<RawRow> = (0..1_024).map(at_port).collect();
    let mut text = "rows 1024 priorities 1\n".to_string();
    for in_port in 0..1_024 {
        text += &format!("1 {in_port} 0.0.0.0/0 0.0.0.0/0 * * * deny\n");
    }
    let (two, three) = ([at_port(2)], [at_port(2), at_port(3)]);
    let rows = table_words(&[&vec![at_port(1); 4_095][..], &two].concat());
    let more = MOST_SLICE_WORDS - LARGEST_ROOM;
    let full = [&[4_096][..], &rows, &vec![0; more], &[0; LARGEST_ROOM]].concat();
    let over = refused(MORE_ROWS, 0, 1 + MOST_SLICE_WORDS + LARGEST_ROOM);
    vec![
        listing("1024 rows listed", &to_bytes(&one_node(&apart)), &text),
        listing("1024 rows, 2 listed", &to_bytes(&file(10, &two)), few),
        listing(
            "1025 rows, 3 to list",
            &to_bytes(&file(10, &three)),
            "refused 12 0\n",
        ),
        case(
            "4096 rows",
            in_largest_room(file(12, &two), more),
            success(&full),
        ),
        case("4097 rows", in_largest_room(file(12, &three), more), over),
    ]
}

/// The most rows, which all overlap, have as many priorities.
fn most_priorities() -> Known {
    let most = MOST_ROWS as u32;
    let priorities: Vec<u32> = (1..=most).rev().collect();
    let chain: Vec<u32> = (0..most).collect();
    let call = Call::Number {
        table: table_words(&vec![open(Deny); MOST_ROWS]),
        priorities: vec![9; MOST_ROWS],
        chain: vec![9; MOST_ROWS],
    };
    let answer = [&[0, 0, most][..], &priorities, &chain].concat();
    case("4096 priorities", call, answer)
}

/// Own-atom counts whose sum is a round number in binary, and no atoms.
fn large_sums() -> Vec<Known> {
    let read = |nodes: usize| {
        let operators = vec![NEWEST.sibling()];
        let mut draft = chain_of_nodes(NEWEST, &operators, &[]);
        draft.nodes = vec![node(&operators, MOST_ATOMS, 0); nodes];
        draft.nodes[0] = node(&operators, MOST_ATOMS, nodes - 1);
        Call::Read {
            file: draft.words(),
        }
    };
    let left = refused(ATOMS_LEFT, 0, READ_COUNTS);
    vec![
        case("own atoms sum to 65536", read(64), left.clone()),
        case("own atoms sum to 262144", read(MOST_NODES), left),
    ]
}
