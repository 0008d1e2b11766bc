//! The listing program as a function from its input bytes to its output text.

use super::action::Action;
use super::edition::NEWEST;
use super::fields::{Kind, KINDS};
use super::file::Policy;
use super::hidden::without_hidden;
use super::matches::Prefix;
use super::numbers::{MORE_ROWS, WRONG_BYTES};
use super::priorities::number;
use super::rows::{compile, Row};
use super::{refusal, Refusal};
use crate::calls::{to_words, WORD_BYTES};

/// The longest file's bytes, which is also what is read at most.
pub const MOST_BYTES: usize = WORD_BYTES * NEWEST.most_words();
/// Rows that a file may compile to, those that are hidden among them.
pub const ROOM: usize = 1_024;

pub fn listing(bytes: &[u8]) -> String {
    match rows(bytes) {
        Ok(rows) => text(&rows),
        Err(refusal) => format!("refused {} {}\n", refusal.number, refusal.place),
    }
}

/// The rows that stay of those that the file compiles to.
fn rows(bytes: &[u8]) -> Result<Vec<Row>, Refusal> {
    if !bytes.len().is_multiple_of(WORD_BYTES) || bytes.len() > MOST_BYTES {
        return Err(refusal(WRONG_BYTES, 0));
    }
    let tree = Policy::read(&to_words(bytes), NEWEST)?.tree();
    let rows = compile(&tree, ROOM).map_err(|_| refusal(MORE_ROWS, 0))?;
    Ok(without_hidden(&rows))
}

fn text(rows: &[Row]) -> String {
    let numbering = number(rows);
    let mut text = format!("rows {} priorities {}\n", rows.len(), numbering.levels);
    for (row, priority) in rows.iter().zip(numbering.priorities) {
        text += &line(row, priority);
    }
    text
}

fn line(row: &Row, priority: u32) -> String {
    let mut fields = vec![priority.to_string()];
    let values = KINDS.pairs(&row.matching);
    fields.extend(values.map(|(kind, prefix)| value(*kind, *prefix)));
    fields.push(action(row.action));
    fields.join(" ") + "\n"
}

fn value(kind: Kind, prefix: Prefix) -> String {
    let [a, b, c, d] = prefix.value.to_be_bytes();
    match kind {
        Kind::Address => format!("{a}.{b}.{c}.{d}/{}", prefix.length),
        Kind::Number { .. } if prefix.constrains() => prefix.value.to_string(),
        Kind::Number { .. } => "*".to_string(),
    }
}

fn action(action: Action) -> String {
    match action {
        Action::DontCare => "none".to_string(),
        Action::Allow => "allow".to_string(),
        Action::Deny => "deny".to_string(),
        Action::Gmb(rate) => format!("gmb {rate}"),
    }
}
