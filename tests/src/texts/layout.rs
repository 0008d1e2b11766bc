//! Laying out the words of a text: what stands before, between and behind them.

use super::pieces::{Pieces, Role};
use crate::model::notation::words::Word;
use crate::random::Random;

/// How the words of a text are parted.
#[derive(Clone, Copy, PartialEq, Eq, Debug)]
pub enum Layout {
    /// A rule a line, indented, with comments now and then.
    Neat,
    /// The same with carriage returns before line feeds.
    Returns,
    /// One blank where one is needed, and no more.
    Tight,
    /// Anything that parts words, much or nothing, and comments anywhere.
    Wild,
}

const LAYOUTS: [Layout; 5] = [
    Layout::Neat,
    Layout::Returns,
    Layout::Tight,
    Layout::Wild,
    Layout::Wild,
];
const PARTING: [&str; 11] = [
    " ",
    " ",
    "\n",
    "\t",
    "\r\n",
    "\r",
    "\n\n",
    "  ",
    "#\n",
    " # {:} \"node\"\r\n",
    "# 7\n",
];
const COMMENTS: [&str; 6] = [
    "",
    " inside and between",
    " }",
    "#",
    "\t\r",
    " \u{e9}\u{feff}\0",
];

pub fn some_layout(random: &mut Random) -> Layout {
    random.pick(&LAYOUTS)
}

pub fn laid_out(random: &mut Random, pieces: &Pieces, layout: Layout) -> Vec<u8> {
    match layout {
        Layout::Neat => neat(random, pieces, "\n"),
        Layout::Returns => neat(random, pieces, "\r\n"),
        Layout::Tight => parted(pieces, |needed, text| {
            if needed {
                text.push(b' ');
            }
        }),
        Layout::Wild => wild(random, pieces),
    }
}

/// Words with what `part` puts before each; it is told whether something is needed.
fn parted(pieces: &Pieces, mut part: impl FnMut(bool, &mut Vec<u8>)) -> Vec<u8> {
    let mut text = Vec::new();
    let mut after_mark = true;
    for piece in &pieces.0 {
        let mark = is_mark(&piece.word);
        part(!mark && !after_mark, &mut text);
        text.extend(&piece.word);
        after_mark = mark;
    }
    text
}

fn is_mark(bytes: &[u8]) -> bool {
    let word = Word { bytes, place: 0 };
    word.among(&["{", "}", ":"]).is_some()
}

fn wild(random: &mut Random, pieces: &Pieces) -> Vec<u8> {
    let much = random.pick(&[0, 5, 40, 90]);
    let mut text = parted(pieces, |needed, text| {
        let mut needed = needed;
        while needed || random.percent(much / 2) {
            text.extend(random.pick(&PARTING).as_bytes());
            needed = false;
        }
    });
    if random.percent(much) {
        text.extend(random.pick(&PARTING).as_bytes());
    }
    if random.percent(much) {
        text.extend(b"# the end");
    }
    text
}

fn neat(random: &mut Random, pieces: &Pieces, end: &str) -> Vec<u8> {
    let commented = random.pick(&[0, 0, 4, 20]);
    let mut text = Vec::new();
    let mut depth = 0_i32;
    for piece in &pieces.0 {
        let closes = matches!(piece.role, Role::NodeEnd | Role::TableEnd);
        if closes {
            depth -= 1;
        }
        let starts = matches!(
            piece.role,
            Role::Item | Role::Root | Role::Node | Role::Label
        );
        if (starts || closes) && !text.is_empty() {
            if random.percent(commented) {
                text.extend(format!("  #{}", random.pick(&COMMENTS)).bytes());
            }
            text.extend(end.bytes());
            text.extend(b"    ".repeat(usize::try_from(depth).unwrap_or(0)));
        } else if !text.is_empty() && piece.word != b":" {
            text.push(b' ');
        }
        text.extend(&piece.word);
        if matches!(piece.role, Role::NodeStart | Role::TableStart) {
            depth += 1;
        }
    }
    if random.percent(80) {
        text.extend(end.bytes());
    }
    text
}
