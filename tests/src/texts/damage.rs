//! Damage to texts: words, lines and bytes that are changed, moved, doubled or gone.

use super::bytes::{change_byte, damage_bytes};
use super::layout::{laid_out, some_layout};
use super::misses::near_miss;
use super::pieces::{Piece, Pieces, Role, ROLES};
use crate::model::matches::{Prefix, WORD_BITS};
use crate::model::notation::reader::{CELLS, PARENT, SIBLING};
use crate::model::notation::rules::UNITS;
use crate::model::notation::values::{address_text, prefix};
use crate::model::notation::words::OWN_WORDS;
use crate::random::Random;

/// Numbers at limits, and some that are none.
const LIMITS: [&str; 12] = [
    "0",
    "255",
    "256",
    "65535",
    "65536",
    "100000",
    "100001",
    "100000000",
    "100000001",
    "4294967295",
    "4294967296",
    "0100",
];
/// Words that are wrong nearly everywhere, and such as are nearly right somewhere.
const ODD: [&str; 60] = [
    "{",
    "}",
    ":",
    "x",
    "sibling",
    "parent",
    "0",
    "1",
    "007",
    "00",
    "-2",
    "+5",
    "1,000",
    "1e3",
    "65535",
    "65536",
    "255",
    "256",
    "99999",
    "100000000",
    "100000001",
    "4294967295",
    "4294967296",
    "18446744073709551616",
    "99999999999999999999999",
    "10.0.0.0/33",
    "10.0.0",
    "10.0.0.0.0",
    "10.0.0.256",
    "10.0.00.1",
    "01.2.3.4",
    "1.2.3.4/",
    "1.2.3.4/08",
    "1.2.3.4/32/",
    "/8",
    "....",
    "1.2.3.",
    ".1.2.3",
    "1.2.3.4/-1",
    "0.0.0.0/0",
    "10.7.3.9",
    "255.255.255.255/32",
    "1.2.3.4/31",
    "0x10",
    "Allow",
    "kbit",
    "Kbit/s",
    "mbit/s",
    "Tbit/s",
    "kbit/s",
    "Mb",
    "gre",
    "TCP",
    "_a",
    "-a",
    "7up",
    "a.b",
    "caf\u{e9}",
    "\u{feff}",
    "\0",
];
const NAMES: [Role; 3] = [Role::OperatorName, Role::NodeName, Role::Label];
const NUMBERS: [Role; 4] = [Role::Rate, Role::Rate, Role::Port, Role::Protocol];

/// A text with one or two faults, which now and then are none.
pub fn damaged(random: &mut Random, pieces: &Pieces) -> Vec<u8> {
    let mut pieces = pieces.clone();
    let by_word = random.percent(75);
    if by_word {
        damage_words(random, &mut pieces);
        if random.percent(15) {
            damage_words(random, &mut pieces);
        }
    }
    let layout = some_layout(random);
    let mut text = laid_out(random, &pieces, layout);
    if !by_word || random.percent(8) {
        damage_bytes(random, &mut text);
    }
    text
}

fn damage_words(random: &mut Random, pieces: &mut Pieces) {
    if pieces.0.is_empty() {
        return;
    }
    let at = random.below(pieces.0.len());
    match random.below(22) {
        0..=3 => {
            let there = |role: &Role| !pieces.places(*role).is_empty();
            let roles: Vec<Role> = ROLES.into_iter().filter(there).collect();
            let role = random.pick(&roles);
            let place = random.pick(&pieces.places(role));
            pieces.0[place].word = another_word(random, pieces);
        }
        4 => drop(pieces.0.remove(at)),
        5 => pieces.0.insert(at, pieces.0[at].clone()),
        6 => {
            let other = random.below(pieces.0.len());
            pieces.0.swap(at, other);
        }
        7 => {
            let next = (at + 1).min(pieces.0.len() - 1);
            pieces.0.swap(at, next);
        }
        8 => {
            let (word, role) = (another_word(random, pieces), pieces.0[at].role);
            pieces.0.insert(at, Piece { word, role });
        }
        9 | 10 => name_twice(random, pieces),
        11..=13 => spoil_number(random, pieces),
        14 => set_host_bits(random, pieces),
        15 => one_end_more_or_less(random, pieces),
        16 => move_rule(random, pieces),
        17 => match random.below(3) {
            0 => pieces.0.truncate(at),
            1 => second_root(random, pieces),
            _ => pieces.put_bytes(Role::Item, &another_word(random, pieces)),
        },
        18..=20 => near_miss(random, pieces),
        _ => misspell(random, pieces),
    }
}

fn some<T: Clone>(random: &mut Random, items: &[T]) -> Option<T> {
    (!items.is_empty()).then(|| random.pick(items))
}

/// A word of the notation, of this text, or of none.
fn another_word(random: &mut Random, pieces: &Pieces) -> Vec<u8> {
    match random.below(8) {
        0 | 1 => random.pick(&OWN_WORDS).as_bytes().to_vec(),
        2 => random.pick(&CELLS).as_bytes().to_vec(),
        3 => random.pick(&UNITS).as_bytes().to_vec(),
        4 if !pieces.0.is_empty() => random.pick(&pieces.0).word,
        _ => random.pick(&ODD).as_bytes().to_vec(),
    }
}

/// One name in place of another of its kind.
fn name_twice(random: &mut Random, pieces: &mut Pieces) {
    let places = pieces.places(random.pick(&NAMES));
    if let Some(from) = some(random, &places) {
        // Labels are told apart in a node only: mostly the next one.
        let behind = places.iter().copied().find(|place| *place > from);
        let to = behind.filter(|_| random.percent(70));
        let to = to.unwrap_or_else(|| random.pick(&places));
        pieces.0[to].word = pieces.0[from].word.clone();
    }
}

fn spoil_number(random: &mut Random, pieces: &mut Pieces) {
    let places = NUMBERS.map(|role| pieces.places(role));
    let there: Vec<Vec<usize>> = places.into_iter().filter(|all| !all.is_empty()).collect();
    let places = some(random, &there).unwrap_or_default();
    if let Some(place) = some(random, &places) {
        pieces.0[place].word = random.pick(&LIMITS).as_bytes().to_vec();
    }
}

fn set_host_bits(random: &mut Random, pieces: &mut Pieces) {
    let Some(place) = some(random, &pieces.places(Role::Prefix)) else {
        return;
    };
    let old = prefix(&pieces.0[place].word).unwrap_or(Prefix::exactly(0));
    let length = random.below(WORD_BITS as usize + 1) as u32;
    let address = old.value | 1 << random.below(WORD_BITS as usize);
    pieces.0[place].word = format!("{}/{length}", address_text(address)).into_bytes();
}

fn one_end_more_or_less(random: &mut Random, pieces: &mut Pieces) {
    if random.percent(50) {
        let at = random.below(pieces.0.len() + 1);
        let (word, role) = (b"}".to_vec(), Role::NodeEnd);
        pieces.0.insert(at, Piece { word, role });
    } else if let Some(place) = some(random, &pieces.places(Role::NodeEnd)) {
        pieces.0.remove(place);
    }
}

/// A whole rule goes behind some node's end or to some other place between rules.
fn move_rule(random: &mut Random, pieces: &mut Pieces) {
    let Some(from) = some(random, &pieces.places(Role::Label)) else {
        return;
    };
    let ends = |piece: &Piece| matches!(piece.role, Role::Label | Role::Node | Role::NodeEnd);
    let behind = pieces.0[from + 1..].iter().position(ends);
    let end = behind.map_or(pieces.0.len(), |length| from + 1 + length);
    let rule: Vec<Piece> = pieces.0.drain(from..end).collect();
    let role = random.pick(&[Role::NodeEnd, Role::NodeEnd, Role::NodeStart]);
    let to = some(random, &pieces.places(role)).map_or(0, |place| place + 1);
    pieces.0.splice(to..to, rule);
}

/// The text's root, or another, behind it.
fn second_root(random: &mut Random, pieces: &mut Pieces) {
    if random.percent(50) {
        let root = pieces.places(Role::Root).first().copied().unwrap_or(0);
        pieces.0.extend_from_within(root..);
        return;
    }
    for (role, word) in [
        (Role::Root, "node"),
        (Role::NodeName, "another-root"),
        (Role::NodeStart, "{"),
        (Role::NodeEnd, "}"),
    ] {
        pieces.put(role, word);
    }
}

/// An operator's name, where it is used or given, with a byte changed, gone or more.
fn misspell(random: &mut Random, pieces: &mut Pieces) {
    let role = random.pick(&[Role::UsedOperator, Role::UsedOperator, Role::OperatorName]);
    if let Some(place) = some(random, &pieces.places(role)) {
        let word = &mut pieces.0[place].word;
        if random.percent(20) {
            *word = random.pick(&[SIBLING, PARENT]).as_bytes().to_vec();
        }
        change_byte(random, word, b"abzAZ09-_");
        if random.percent(15) {
            change_byte(random, word, b"abzAZ09-_");
        }
    }
}

/// Words of the notation in any order, as far as they are drawn.
pub fn soup(random: &mut Random) -> Vec<u8> {
    let starts = [
        "operator a {",
        "operator a { allow deny reserve",
        "node a {",
        "node a",
        "node a { x:",
        "node a { x: allow",
        "node a { x: reserve",
        "node a { node b {",
        "node a { node b { } }",
    ];
    let mut pieces = Pieces::default();
    for word in random.pick(&starts).split_whitespace() {
        pieces.put(Role::Part, word);
    }
    for _ in 0..random.below(9) {
        let word = another_word(random, &pieces);
        pieces.put_bytes(Role::Part, &word);
    }
    let layout = some_layout(random);
    laid_out(random, &pieces, layout)
}
