//! The numbering: all pairs of rows as the definition says, and with the rows left out that cannot raise a level.

use crate::flow::{Row, overlap};
use crate::numbers;
use crate::table::{Wrong, check};

/// Each row against all rows before it.
#[inline(never)]
pub fn all_pairs(table: &[u32], priorities: &mut [u32], chain: &mut [u32]) -> Result<u32, Wrong> {
    number(table, priorities, chain, |rows, levels, i, _| {
        let mut level = 0;
        for j in 0..i {
            if overlap(&rows[j], &rows[i]) {
                level = level.max(levels[j] + 1);
            }
        }
        level
    })
}

/// Backwards, without the rows whose level is too low, up to the highest level there can be.
#[inline(never)]
pub fn pruned(table: &[u32], priorities: &mut [u32], chain: &mut [u32]) -> Result<u32, Wrong> {
    number(table, priorities, chain, |rows, levels, i, count| {
        let mut level = 0;
        for j in (0..i).rev() {
            if level == count {
                break;
            }
            if levels[j] >= level && overlap(&rows[j], &rows[i]) {
                level = levels[j] + 1;
            }
        }
        level
    })
}

#[inline(always)]
fn number(
    table: &[u32],
    priorities: &mut [u32],
    chain: &mut [u32],
    level: impl Fn(&[Row], &[u32], usize, u32) -> u32,
) -> Result<u32, Wrong> {
    let rows = check(table)?;
    if priorities.len() < rows.len() || chain.len() < rows.len() {
        return Err((numbers::BUFFER, 0));
    }
    let levels = &mut priorities[..rows.len()];
    let mut count = 0;
    for i in 0..rows.len() {
        levels[i] = level(rows, levels, i, count);
        count = count.max(levels[i] + 1);
    }
    put_chain(rows, levels, count, chain);
    for level in levels {
        *level = count - *level;
    }
    Ok(count)
}

fn put_chain(rows: &[Row], levels: &[u32], count: u32, chain: &mut [u32]) {
    let mut before = rows.len();
    for level in (0..count).rev() {
        let at = (0..before)
            .find(|&j| levels[j] == level && (before == rows.len() || overlap(&rows[j], &rows[before])))
            .unwrap();
        chain[level as usize] = at as u32;
        before = at;
    }
}
