//! The check of a table and the scan.

use crate::action::{Action, right_action, row_action};
use crate::flow::{Packet, Row, is_empty, meets, right_match, right_packet};
use crate::numbers;

pub const MOST_ROWS: usize = 4096;

/// A refusal's number and place.
pub type Wrong = (u32, usize);

pub fn check(table: &[u32]) -> Result<&[Row], Wrong> {
    let (rows, rest) = table.as_chunks();
    if !rest.is_empty() || rows.len() > MOST_ROWS {
        return Err((numbers::TABLE, 0));
    }
    match rows.iter().position(|row| !right_row(row)) {
        Some(wrong) => Err((numbers::ROW, wrong)),
        None => Ok(rows),
    }
}

/// The first matching row's action and how many rows were tried.
#[inline(never)]
pub fn scan(table: &[u32], packet: &[u32]) -> Result<(Action, usize), Wrong> {
    let packet = right_packet(packet).ok_or((numbers::PACKET, 0))?;
    let rows = check(table)?;
    Ok(match first_match(rows, packet) {
        Some(place) => (row_action(&rows[place]), place + 1),
        None => (Action::DontCare, rows.len()),
    })
}

#[inline(always)]
pub fn first_match(rows: &[Row], packet: &Packet) -> Option<usize> {
    rows.iter().position(|row| meets(row, packet))
}

fn right_row(row: &Row) -> bool {
    right_match(row) && !is_empty(row) && right_action(row)
}
