//! The cures of faults.

use super::faults::{
    HOST_BITS, NODES_OPEN, NO_ACTION, NO_CELL, NO_CHILD, NO_HEADING, NO_ITEM, NO_LAST_CELL,
    NO_MATCH, NO_NODE_NAME, NO_NODE_START, NO_OPERATOR_NAME, NO_PORT, NO_PROTOCOL, NO_RATE,
    NO_RULE, NO_SIDE, NO_SUCH_OPERATOR, NO_TABLE, NO_UNIT, WORDS_BEHIND,
};
use super::message::words_at;
use super::reader::{CELLS, KINDS, PARENT, SIBLING};
use super::rules::UNITS;
use super::values::{address_text, number, prefix};
use super::words::{differ_by_one, words, Word, OWN_WORDS};
use super::{Fault, More};
use crate::model::fields::MOST_PORT;
use crate::model::matches::WORD_BITS;

const ORDER_MARK: [u8; 3] = [0xef, 0xbb, 0xbf];
const PARTS: [&str; 8] = ["in", "protocol", "tcp", "udp", "icmp", "from", "to", "port"];
const MATCHES: [&str; 9] = [
    "any", "never", "in", "protocol", "tcp", "udp", "icmp", "from", "to",
];
const ACTIONS: [&str; 4] = ["allow", "deny", "reserve", "none"];
const PLACES: [&str; 3] = ["inside", "between", "below"];

const ADDRESS: &str = "an address is four numbers of at most 255 with dots between them";
const LETTER: &str = "a name begins with a letter";
const NO_BLANKS: &str = "a name has no blanks";
const BEFORE_ROOT: &str = "operators stand before the root";
const NO_MARKS: &str = "write the number without marks";

/// What stands behind the sentence, if anything does.
pub fn cure(text: &[u8], fault: &Fault) -> Option<Vec<u8>> {
    let (word, next) = words_at(text, fault.place);
    match fault.number {
        1..=WORDS_BEHIND => wanted_cure(text, fault.number, word, next),
        NO_SUCH_OPERATOR if word.is_name() => {
            let supplied = [SIBLING, PARENT].map(str::as_bytes);
            let near = match fault.more {
                More::Near(Some(place)) => Some(words_at(text, place).0.bytes),
                _ => None,
            };
            let mut close_ones = supplied.into_iter().filter(|one| close(word.bytes, one));
            close_ones.next().or(near).map(did_you_mean)
        }
        NO_SUCH_OPERATOR => name_cure(word),
        HOST_BITS => match fault.more {
            More::Prefix { address, length } => Some(prefix_cure(address, length)),
            _ => None,
        },
        NODES_OPEN => said("a } is missing"),
        _ => None,
    }
}

fn said(cure: &str) -> Option<Vec<u8>> {
    Some(cure.as_bytes().to_vec())
}

fn did_you_mean(word: &[u8]) -> Vec<u8> {
    [b"did you mean ", word, b"?"].concat()
}

/// The prefix without the bits behind its length, or its address alone.
fn prefix_cure(address: u32, length: u32) -> Vec<u8> {
    let kept = u64::from(u32::MAX) << (WORD_BITS - length);
    let first = address_text(address & kept as u32);
    let second = address_text(address);
    format!("did you mean {first}/{length} or {second}?").into_bytes()
}

/// The cure of a fault where another word was wanted.
fn wanted_cure(text: &[u8], fault: u32, word: Word, next: Word) -> Option<Vec<u8>> {
    if words(text)[0].bytes.starts_with(&ORDER_MARK) {
        return said("the text begins with a byte order mark; save it without one");
    }
    let colon = next.is(":");
    if word.among(&OWN_WORDS).is_none() && !colon {
        let mut wanted = wanted_words(fault).iter();
        if let Some(near) = wanted.find(|near| close(word.bytes, near.as_bytes())) {
            return Some(did_you_mean(near.as_bytes()));
        }
    }
    match fault {
        NO_OPERATOR_NAME | NO_NODE_NAME => name_cure(word),
        NO_RULE if colon => name_cure(word),
        NO_UNIT => unit_of(word.bytes).map(|unit| did_you_mean(unit.as_bytes())),
        NO_SIDE => side_cure(word),
        _ => said(row_cure(fault, word, colon)?),
    }
}

/// The words among which a near one is looked for.
fn wanted_words(fault: u32) -> &'static [&'static str] {
    match fault {
        NO_ITEM => &["operator", "node"],
        4..=6 => {
            let place = NO_HEADING.iter().position(|number| *number == fault);
            place.map_or(&[], |place| &KINDS[place..=place])
        }
        NO_CELL => &CELLS[..4],
        NO_LAST_CELL => &CELLS,
        NO_NODE_START => &PLACES,
        NO_RULE | NO_CHILD => &["node"],
        NO_ACTION => &ACTIONS,
        NO_MATCH => &MATCHES,
        NO_SIDE => &["port"],
        _ => &[],
    }
}

/// What is wrong with a name.
fn name_cure(word: Word) -> Option<Vec<u8>> {
    let first = *word.bytes.first()?;
    if first.is_ascii_digit() || first == b'-' || first == b'_' {
        return said(LETTER);
    }
    if word.among(&OWN_WORDS).is_some() {
        return Some([word.bytes, b" is a word of the notation and no name"].concat());
    }
    if word.among(&[":", "{", "}"]).is_some() {
        return None;
    }
    said("a name has letters, digits, - and _")
}

/// The first of the fault's rows that holds, where its cure is always the same.
fn row_cure(fault: u32, word: Word, colon: bool) -> Option<&'static str> {
    let bytes = word.bytes;
    let one_of = |words: &[&str]| word.among(words).is_some();
    let rows: &[(bool, &'static str)] = match fault {
        NO_ITEM => &[
            (
                word.is("{"),
                "sibling and parent have no cells of their own; give the operator another name",
            ),
            (
                digits(bytes),
                "this looks like a policy file in decimal words, which is no text of the notation",
            ),
        ],
        NO_TABLE => &[(word.is_name(), NO_BLANKS)],
        4..=6 => &[(true, "the headings are allow, deny, reserve, in this order")],
        NO_CELL => &[(
            one_of(&CELLS[4..]),
            "larger, smaller and sum stand only in the last cell",
        )],
        NO_NODE_START => &[
            (
                one_of(&PLACES),
                "they stand in the order inside, between, below",
            ),
            (word.is_name(), NO_BLANKS),
        ],
        NO_RULE => &[
            (word.is_name(), "is a : missing behind it?"),
            (
                one_of(&ACTIONS),
                "a rule has a name and : before its action",
            ),
            (
                one_of(&PARTS),
                "the parts of a match stand in the order in, protocol, from, to",
            ),
            (word.is("operator"), BEFORE_ROOT),
            (
                prefix(bytes).is_some(),
                "a side has one prefix; write a rule for each",
            ),
            (digits(bytes), "write port before it"),
        ],
        NO_CHILD => &[
            (
                word.is_name(),
                "a node's rules stand before the nodes inside it",
            ),
            (word.is("operator"), BEFORE_ROOT),
        ],
        NO_ACTION => &[
            (digits(bytes), "write reserve before it"),
            (
                one_of(&["any", "never"]) || one_of(&PARTS),
                "an action stands before the match",
            ),
        ],
        NO_RATE => &[
            (behind_digits(bytes), "put a blank before the unit"),
            (
                !digits(bytes) && with_marks(bytes, b"."),
                "write it in a smaller unit",
            ),
            (padded(bytes), "write it without zeros before it"),
            (!digits(bytes) && with_marks(bytes, b",_"), NO_MARKS),
        ],
        NO_PORT => &[
            (padded(bytes), "write it without zeros before it"),
            (!digits(bytes) && with_marks(bytes, b",_"), NO_MARKS),
        ],
        NO_MATCH => &[
            (
                prefix(bytes).is_some() || word.is("port"),
                "write from or to before it",
            ),
            (digits(bytes), "write in, protocol or port before it"),
            (
                one_of(&["}", "node"]) || word.is_end() || colon,
                "write any for every packet",
            ),
        ],
        NO_PROTOCOL => &[
            (padded(bytes), "write it without zeros before it"),
            (
                one_of(&["tcp", "udp", "icmp"]),
                "write it without protocol before it",
            ),
            (!digits(bytes) && with_marks(bytes, b",_"), NO_MARKS),
        ],
        WORDS_BEHIND => &[
            (
                word.is("node"),
                "a policy has one root; put the node inside it",
            ),
            (word.is("}"), "there is a } too many"),
            (word.is("operator"), BEFORE_ROOT),
            (
                word.is_name(),
                "a rule stands inside the braces of its node",
            ),
        ],
        _ => &[],
    };
    rows.iter().find(|(holds, _)| *holds).map(|(_, cure)| *cure)
}

/// The cure where a prefix, an address or `port` was wanted.
fn side_cure(word: Word) -> Option<Vec<u8>> {
    let bytes = word.bytes;
    if word.is("any") {
        return said("leave the side out, or write its port alone");
    }
    if let Some(address) = number(bytes) {
        if address > MOST_PORT {
            return Some(did_you_mean(address_text(address).as_bytes()));
        }
        return said("write port before it");
    }
    if digits(bytes) {
        return said(ADDRESS);
    }
    let mut halves = bytes.splitn(2, |byte| *byte == b'/').skip(1);
    let long = |length: &[u8]| number(length).is_some_and(|length| length > WORD_BITS);
    if halves.next().is_some_and(long) {
        return said("a length is at most 32");
    }
    if with_marks(bytes, b"./") {
        return said(ADDRESS);
    }
    None
}

/// Whether two words differ, and only in the case of letters or by one byte.
fn close(one: &[u8], other: &[u8]) -> bool {
    one != other && (one.eq_ignore_ascii_case(other) || differ_by_one(one, other))
}

fn digits(word: &[u8]) -> bool {
    !word.is_empty() && word.iter().all(u8::is_ascii_digit)
}

/// Digits with a zero before others.
fn padded(word: &[u8]) -> bool {
    digits(word) && word.len() > 1 && word[0] == b'0'
}

/// Whether it begins with a digit and has but digits and these marks.
fn with_marks(word: &[u8], marks: &[u8]) -> bool {
    let right = |byte: &u8| byte.is_ascii_digit() || marks.contains(byte);
    word.first().is_some_and(u8::is_ascii_digit) && word.iter().all(right)
}

/// Whether it begins with a digit, and a unit begins behind its first digits.
fn behind_digits(word: &[u8]) -> bool {
    let first = word.iter().position(|byte| !byte.is_ascii_digit());
    first.is_some_and(|first| first > 0 && unit_of(&word[first..]).is_some())
}

/// The unit as which a word begins.
fn unit_of(word: &[u8]) -> Option<&'static str> {
    let first = word.first()?.to_ascii_lowercase();
    let place = [b'k', b'm', b'g'].iter().position(|unit| *unit == first)?;
    let goes_on = word
        .get(1)
        .is_none_or(|byte| byte.eq_ignore_ascii_case(&b'b'));
    goes_on.then_some(UNITS[place])
}
