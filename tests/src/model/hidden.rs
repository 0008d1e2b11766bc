//! Hidden rows, and the rows that stay without them.

use super::rows::Row;

/// The rows that stay, in order. Each is held against all the rows given before
/// it, hidden themselves or not; actions do not matter.
pub fn without_hidden(rows: &[Row]) -> Vec<Row> {
    let hidden = |place: usize| {
        let earlier = &rows[..place];
        earlier.iter().any(|one| inside(&rows[place], one))
    };
    let stay = (0..rows.len()).filter(|place| !hidden(*place));
    stay.map(|place| rows[place]).collect()
}

/// Whether every packet that meets a row also meets another.
pub fn inside(row: &Row, other: &Row) -> bool {
    other.matching.holds(&row.matching)
}
