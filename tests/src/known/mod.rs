//! The known cases, with answers written down and not worked out by the model.

mod agent;
mod captures;
mod hidden;
mod limits;
mod marked;
pub mod notation;
mod ports;
mod shuffles;
mod sums;
mod whole;
mod worked;

use crate::calls::{words_of_bytes, Call, PLACED_WORDS, READ_COUNTS, REFUSAL_WORDS};
use crate::model::action::Action;
use crate::model::edition::{Edition, NEWEST, ROW_WORDS};
use crate::model::fields::Packet;
use crate::model::matches::{Match, Prefix};
use crate::model::numbers::BROKEN_LAW;
use crate::model::operator::Cells;
use crate::model::record::{Node, RawRow};
use crate::policies::Draft;
use crate::tables::table_words;

pub struct Known {
    pub name: &'static str,
    pub call: Call,
    pub answer: Vec<u32>,
}

pub fn known() -> Vec<Known> {
    let mut cases = worked::cases();
    cases.extend(limits::cases());
    cases.extend(hidden::cases());
    cases.extend(ports::cases());
    cases.extend(sums::cases());
    cases.extend(captures::cases());
    cases.extend(shuffles::cases());
    cases.extend(agent::cases());
    cases
}

fn case(name: &'static str, call: Call, answer: Vec<u32>) -> Known {
    Known { name, call, answer }
}

/// A success's refusal words, then the value.
fn success(value: &[u32]) -> Vec<u32> {
    [&[0; REFUSAL_WORDS], value].concat()
}

/// A refusal without a law, then as many zeros as the value has words.
fn refused(number: u32, place: u32, value_words: usize) -> Vec<u32> {
    let zeros = REFUSAL_WORDS - PLACED_WORDS + value_words;
    [&[number, place][..], &vec![0; zeros]].concat()
}

/// An operator that is refused on reading: the law that it breaks, and what shows it.
fn broken(operator: u32, law: u32, actions: [Action; 3]) -> Vec<u32> {
    let actions = actions.map(Action::words).concat();
    [
        &[BROKEN_LAW, operator, law][..],
        &actions,
        &[0; READ_COUNTS],
    ]
    .concat()
}

/// The tree's action for a packet.
fn action(name: &'static str, file: Vec<u32>, packet: Packet, action: Action) -> Known {
    let packet = packet.words(NEWEST);
    case(
        name,
        Call::Action { file, packet },
        success(&action.words()),
    )
}

/// A compile with one row more of room than the rows need.
fn compile(name: &'static str, file: Vec<u32>, rows: &[RawRow]) -> Known {
    let room = ROW_WORDS * (rows.len() + 1);
    let mut table = table_words(rows);
    table.resize(room, 0);
    let answer = [&[rows.len() as u32][..], &table, &vec![0; room]].concat();
    let call = Call::Compile {
        file,
        table: vec![9; room],
        scratch: vec![8; room],
    };
    case(name, call, success(&answer))
}

/// A node with these operators: inner and sibling the first, parent the second or the first.
fn node(operators: &[Cells], atoms: usize, children: usize) -> Node {
    Node {
        parent: operators.len() as u32 - 1,
        atoms: atoms as u32,
        children: children as u32,
        ..Node::default()
    }
}

/// A chain of nodes, each with these atoms. The first operator holds inside and
/// among siblings, the last one for parents.
fn chain_of_nodes(edition: Edition, operators: &[Cells], nodes: &[&[RawRow]]) -> Draft {
    let node = |(depth, atoms): (usize, &&[RawRow])| {
        node(operators, atoms.len(), usize::from(depth + 1 < nodes.len()))
    };
    Draft {
        edition,
        operators: operators.to_vec(),
        atoms: nodes.concat(),
        nodes: nodes.iter().enumerate().map(node).collect(),
    }
}

/// An atom that constrains nothing.
fn open(action: Action) -> RawRow {
    Match::default().raw(action)
}

/// An atom for the destinations of a prefix.
fn to(destination: Prefix, action: Action) -> RawRow {
    let open = Match::default();
    Match {
        destination,
        ..open
    }
    .raw(action)
}

fn one_node(atoms: &[RawRow]) -> Vec<u32> {
    chain_of_nodes(NEWEST, &[NEWEST.sibling()], &[atoms]).words()
}

fn listing(name: &'static str, bytes: &[u8], text: &str) -> Known {
    let bytes = bytes.to_vec();
    let answer = words_of_bytes(text.as_bytes());
    case(name, Call::Listing { bytes }, answer)
}
