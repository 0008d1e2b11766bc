//! The message of a fault: its place, a sentence and, where there is one, a cure.

use super::cures::cure;
use super::faults::{
    HOST_BITS, MORE_NODES, MORE_OPERATORS, MORE_RULES, NAME_TWICE, NODES_OPEN, NO_SUCH_OPERATOR,
    RATE_BEYOND, TOO_DEEP,
};
use super::words::{words, Word};
use super::{line_and_column, Fault, More};

/// A longer word is shown in part.
const MOST_SHOWN: usize = 40;

/// What is wanted by the faults 1 to 21, in words.
const WANTED: [&str; 21] = [
    "`operator` or `node`",
    "a name for the operator",
    "`{` before the operator's cells",
    "the heading `allow`",
    "the heading `deny`",
    "the heading `reserve`",
    "a cell: `allow`, `deny`, `left` or `right`",
    "the last cell: `allow`, `deny`, `left`, `right`, `larger`, `smaller` or `sum`",
    "`}` behind the operator's nine cells",
    "a name for the node",
    "`inside`, `between`, `below` or `{`",
    "a rule (NAME: ..), `node` or `}`",
    "`node` or `}`",
    "an action: `allow`, `deny`, `reserve` or `none`",
    "a rate, a number below 4,294,967,296",
    "a unit: `kbit/s`, `Mbit/s` or `Gbit/s`",
    "a match: `any`, `never`, or `in`, a protocol, `from` or `to`",
    "a port, a number of at most 65,535",
    "a protocol, a number of at most 255",
    "a prefix (as 10.7.0.0/16), an address or `port`",
    "the end of the text",
];

/// The whole line, with its line feed.
pub fn message(text: &[u8], fault: &Fault) -> Vec<u8> {
    let mut line = place(text, fault.place);
    line += ": ";
    line += &sentence(text, fault);
    let mut bytes = line.into_bytes();
    if let Some(cure) = cure(text, fault) {
        bytes.extend(b"; ");
        bytes.extend(cure);
    }
    bytes.push(b'\n');
    bytes
}

/// The word that begins at a place, and the word behind it. A place behind the end counts as the end.
pub fn words_at(text: &[u8], place: usize) -> (Word<'_>, Word<'_>) {
    let all = words(text);
    let at = all.iter().position(|word| word.place >= place);
    let at = at.unwrap_or(all.len() - 1);
    (all[at], all[(at + 1).min(all.len() - 1)])
}

fn place(text: &[u8], place: usize) -> String {
    let (line, column) = line_and_column(text, place.min(text.len()));
    format!("{line}:{column}")
}

fn sentence(text: &[u8], fault: &Fault) -> String {
    let (word, _) = words_at(text, fault.place);
    let shown = shown(&word);
    let other = match fault.more {
        More::Place(place) => place,
        _ => 0,
    };
    match fault.number {
        NAME_TWICE => format!(
            "the name {shown} is given already, at {}",
            place(text, other)
        ),
        NO_SUCH_OPERATOR if word.is_name() => format!("there is no operator {shown}"),
        NO_SUCH_OPERATOR => format!("found {shown}, wanted an operator's name"),
        HOST_BITS => format!("{shown} has bits behind its prefix length"),
        RATE_BEYOND => "a rate is from 1 kbit/s to 100 Gbit/s".to_string(),
        MORE_OPERATORS => "more than 32 operators".to_string(),
        MORE_RULES => "more than 1,024 rules".to_string(),
        MORE_NODES => "more than 256 nodes".to_string(),
        TOO_DEEP => format!("node {shown} is more than 16 deep"),
        NODES_OPEN => {
            let (node, _) = words_at(text, other);
            let (node, at) = (self::shown(&node), place(text, other));
            format!("the text ends, and node {node} of {at} is still open")
        }
        number => format!("found {shown}, wanted {}", WANTED[number as usize - 1]),
    }
}

/// A word in backquotes, byte by byte.
fn shown(word: &Word) -> String {
    if word.is_end() {
        return "the end of the text".to_string();
    }
    let mut shown = "`".to_string();
    for &byte in word.bytes.iter().take(MOST_SHOWN) {
        match byte {
            33..=126 => shown.push(byte as char),
            _ => shown += &format!("\\x{byte:02x}"),
        }
    }
    shown.push('`');
    if word.bytes.len() > MOST_SHOWN {
        shown += "..";
    }
    shown
}
