//! Levels, priorities and the chain.

use super::numbers::SHORT_BUFFER;
use super::rows::{read_table, Row};
use super::{refusal, Refusal};

pub struct Numbering {
    /// How many priorities there are.
    pub levels: u32,
    /// Each row's priority.
    pub priorities: Vec<u32>,
    /// Places of rows in scan order, one for each priority.
    pub chain: Vec<u32>,
}

impl Numbering {
    /// Writes the priorities and the chain at the front of their buffers.
    pub fn put(&self, priorities: &mut [u32], chain: &mut [u32]) {
        priorities[..self.priorities.len()].copy_from_slice(&self.priorities);
        chain[..self.chain.len()].copy_from_slice(&self.chain);
    }
}

pub fn overlap(one: &Row, two: &Row) -> bool {
    one.matching.common(&two.matching).is_some()
}

/// The numbering of a lent table: its refusals, then 17 if one of the two buffers is short.
pub fn number_lent(table: &[u32], priorities: usize, chain: usize) -> Result<Numbering, Refusal> {
    let rows = read_table(table)?;
    if priorities < rows.len() || chain < rows.len() {
        return Err(refusal(SHORT_BUFFER, 0));
    }
    Ok(number(&rows))
}

pub fn number(rows: &[Row]) -> Numbering {
    let level = levels(rows);
    let levels = level.iter().map(|level| level + 1).max().unwrap_or(0);
    Numbering {
        levels,
        priorities: level.iter().map(|level| levels - level).collect(),
        chain: chain(rows, &level, levels),
    }
}

fn levels(rows: &[Row]) -> Vec<u32> {
    let mut level: Vec<u32> = Vec::new();
    for (place, row) in rows.iter().enumerate() {
        let under = (0..place)
            .filter(|earlier| overlap(&rows[*earlier], row))
            .map(|earlier| level[earlier] + 1)
            .max();
        level.push(under.unwrap_or(0));
    }
    level
}

/// From the first row of the last level back to level 0, always by the first
/// earlier overlapping row one level lower.
fn chain(rows: &[Row], level: &[u32], levels: u32) -> Vec<u32> {
    let Some(last_level) = levels.checked_sub(1) else {
        return Vec::new();
    };
    let first = |wanted: u32, before: usize, row: Option<&Row>| {
        (0..before)
            .find(|&place| {
                level[place] == wanted && row.is_none_or(|row| overlap(&rows[place], row))
            })
            .expect("every level has such a row")
    };
    let mut place = first(last_level, rows.len(), None);
    let mut chain = vec![place as u32];
    for wanted in (0..last_level).rev() {
        place = first(wanted, place, Some(&rows[place]));
        chain.push(place as u32);
    }
    chain.reverse();
    chain
}
