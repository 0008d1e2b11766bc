//! Tables of rows: joining, compiling, reading and scanning them.

use super::action::Action;
use super::edition::{NEWEST, ROW_WORDS};
use super::fields::Packet;
use super::matches::Match;
use super::numbers::{NOT_A_TABLE, WRONG_PACKET, WRONG_ROW};
use super::operator::Operator;
use super::record::RawRow;
use super::tree::Tree;
use super::{refusal, Refusal};

pub const MOST_ROWS: usize = 4_096;

#[derive(Clone, Copy, PartialEq, Eq, Debug)]
pub struct Row {
    pub matching: Match,
    pub action: Action,
}

impl Row {
    pub fn raw(&self) -> RawRow {
        self.matching.raw(self.action)
    }
}

/// More rows than room.
#[derive(Debug)]
pub struct Full;

/// The common rows (those of `left` slowest), then `left`, then `right`. Tables
/// only grow in joining, so one over the room at any time settles the answer.
fn join(operator: &Operator, left: &[Row], right: &[Row], room: usize) -> Result<Vec<Row>, Full> {
    let kept = left.len() + right.len();
    if kept > room {
        return Err(Full);
    }
    let mut rows = Vec::new();
    for one in left {
        for two in right {
            if let Some(matching) = one.matching.common(&two.matching) {
                let action = operator.join(one.action, two.action);
                rows.push(Row { matching, action });
            }
        }
        if rows.len() + kept > room {
            return Err(Full);
        }
    }
    rows.extend_from_slice(left);
    rows.extend_from_slice(right);
    Ok(rows)
}

/// The rows of a tree, if there is room for them.
pub fn compile(tree: &Tree, room: usize) -> Result<Vec<Row>, Full> {
    let mut own = Vec::new();
    for atom in tree.atoms.iter().rev() {
        let action = atom.action;
        let row = atom.matching.map(|matching| Row { matching, action });
        let table: Vec<Row> = row.into_iter().collect();
        own = join(&tree.inner, &table, &own, room)?;
    }
    let mut below = Vec::new();
    for child in tree.children.iter().rev() {
        below = join(&tree.sibling, &compile(child, room)?, &below, room)?;
    }
    join(&tree.parent, &own, &below, room)
}

/// A lent table: refusals 15 and 16.
pub fn read_table(words: &[u32]) -> Result<Vec<Row>, Refusal> {
    if !words.len().is_multiple_of(ROW_WORDS) || words.len() / ROW_WORDS > MOST_ROWS {
        return Err(refusal(NOT_A_TABLE, 0));
    }
    let mut rows = Vec::new();
    for (place, words) in words.chunks(ROW_WORDS).enumerate() {
        let raw = RawRow::from_words(words, NEWEST);
        let action = Action::read(raw.kind, raw.rate, NEWEST);
        match (Match::read(&raw, NEWEST), action) {
            (Ok(Some(matching)), Ok(action)) => rows.push(Row { matching, action }),
            _ => return Err(refusal(WRONG_ROW, place)),
        }
    }
    Ok(rows)
}

/// What a packet finds in a lent table: refusal 11, then those of the table.
pub fn scan_lent(table: &[u32], packet: &[u32]) -> Result<(Action, usize), Refusal> {
    let packet = Packet::read(packet, NEWEST).map_err(|_| refusal(WRONG_PACKET, 0))?;
    Ok(scan(&read_table(table)?, &packet))
}

/// The first matching row's action and how many rows were tried.
pub fn scan(rows: &[Row], packet: &Packet) -> (Action, usize) {
    for (place, row) in rows.iter().enumerate() {
        if row.matching.meets(packet) {
            return (row.action, place + 1);
        }
    }
    (Action::DontCare, rows.len())
}
