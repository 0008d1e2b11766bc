//! Hidden rows out of a table, in place: all earlier rows asked as the definition says, and only those that stay.

use crate::flow::{KIND, ROW_WORDS, Row, inside};
use crate::table::{Wrong, check};

/// The kind of a row that goes: no right one. Actions are not asked for, so the row still hides others.
const GOES: u32 = u32::MAX;

/// Each row against all rows before it.
#[inline(never)]
pub fn all_pairs(table: &mut [u32]) -> Result<usize, Wrong> {
    check(table)?;
    let rows = table.as_chunks_mut().0;
    for i in 0..rows.len() {
        let mut hidden = false;
        for j in 0..i {
            hidden |= inside(&rows[i], &rows[j]);
        }
        if hidden {
            rows[i][KIND] = GOES;
        }
    }
    Ok(keep(rows, |_, row| row[KIND] != GOES))
}

/// Each row against the rows that stay before it, up to the first that hides it.
#[inline(never)]
pub fn pruned(table: &mut [u32]) -> Result<usize, Wrong> {
    check(table)?;
    let rows = table.as_chunks_mut().0;
    Ok(keep(rows, |kept, row| !kept.iter().any(|earlier| inside(row, earlier))))
}

/// Moves the rows that stay to the front, each judged with those before it, clears the rest, and answers how many there are.
#[inline(always)]
fn keep(rows: &mut [Row], stays: impl Fn(&[Row], &Row) -> bool) -> usize {
    let mut kept = 0;
    for i in 0..rows.len() {
        if stays(&rows[..kept], &rows[i]) {
            rows[kept] = rows[i];
            kept += 1;
        }
    }
    rows[kept..].fill([0; ROW_WORDS]);
    kept
}
