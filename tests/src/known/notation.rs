//! Texts in the notation with their answers, written from the page by hand.
//!
//! In a text that has a fault, `|` stands before the fault's place and `!` before the place
//! that it names besides; neither is part of the text.

use super::marked::MARKED;
use super::whole;
use crate::frames::Frame;

pub struct KnownText {
    pub name: String,
    pub frame: Frame,
    pub answer: Vec<u32>,
}

/// What a fault says besides its place.
enum Says {
    Nothing,
    Place,
    Near,
    NoneNear,
    Prefix(u32, u32),
}

use Says::{Near, NoneNear, Nothing, Place, Prefix};

/// A table without its last cell and its end.
const CELLS: &str =
    "{ allow deny reserve allow allow deny right deny deny deny deny reserve left deny";

pub fn cases() -> Vec<KnownText> {
    let plain = MARKED.iter();
    let mut cases: Vec<KnownText> = plain
        .map(|(number, text)| faulty(*number, text, Nothing))
        .collect();
    cases.extend(prefixes());
    cases.extend(names());
    cases.extend(uses_of_operators());
    cases.extend(limits());
    cases.extend(ends());
    cases.extend(whole::cases());
    cases
}

/// The case of a text with a fault; `CELLS` in it stands for a table's front.
fn faulty(number: u32, marked: &str, says: Says) -> KnownText {
    let marked = marked.replace("CELLS", CELLS);
    let place_of = |mark: char| {
        let before = marked.split(mark).next().expect("a first part");
        before.replace(['|', '!'], "")
    };
    let before = place_of('|');
    let lines: Vec<&str> = before.split('\n').collect();
    let column = lines[lines.len() - 1].len() + 1;
    let mut answer = [number as usize, before.len(), lines.len(), column]
        .map(|word| word as u32)
        .to_vec();
    let named = place_of('!').len() as u32;
    match says {
        Nothing => {}
        Place => answer.push(named),
        Near => answer.extend([1, named]),
        NoneNear => answer.extend([0, 0]),
        Prefix(address, length) => answer.extend([address, length]),
    }
    let front: String = marked.chars().take(90).collect();
    KnownText {
        name: format!("of fault {number}, {front:?}"),
        frame: Frame::Text(marked.replace(['|', '!'], "").into_bytes()),
        answer,
    }
}

fn prefixes() -> Vec<KnownText> {
    let case = |text: &str, address: u32, length: u32| faulty(24, text, Prefix(address, length));
    vec![
        case("node a { x: allow to |10.7.3.9/16 }", 168_231_689, 16),
        case("node a { x: allow from |0.0.0.1/0 port x }", 1, 0),
        case("node a { x: allow from |255.255.255.255/31", u32::MAX, 31),
    ]
}

/// Names that are given twice, and such as may be.
fn names() -> Vec<KnownText> {
    let texts = [
        "operator !sibling operator |sibling",
        "operator !a CELLS left } operator parent operator |a {",
        "node !a { node |a {} }",
        "node a { node !b { node c {} } node |b",
        "node a { !x: allow any x-: allow any |x: nothing",
        "node a { x: allow any node b { !x: deny any |x: deny any } }",
    ];
    texts.iter().map(|text| faulty(22, text, Place)).collect()
}

fn uses_of_operators() -> Vec<KnownText> {
    vec![
        faulty(23, "node a inside |b {", NoneNear),
        faulty(23, "node !a between |siblinG {", Near),
        faulty(23, "operator !sibling node a below |sibling2 {", Near),
        faulty(23, "operator !parent node a inside |parents", Near),
        faulty(
            23,
            "operator !ab CELLS sum } operator b CELLS sum } node a inside |a {",
            Near,
        ),
        faulty(
            23,
            "operator cd CELLS sum } operator !ab CELLS sum } node a inside |bb {",
            Near,
        ),
        faulty(23, "operator ab CELLS sum } node a inside |ba {", NoneNear),
        faulty(
            23,
            "operator abcd CELLS sum } node a inside |ab {",
            NoneNear,
        ),
        faulty(23, "operator !aab CELLS sum } node a inside |ab {", Near),
    ]
}

fn operators(count: usize) -> String {
    let operator = |index: usize| format!("operator o{index} {CELLS} sum }} ");
    (0..count).map(operator).collect()
}

fn any_rules(count: usize) -> String {
    (0..count)
        .map(|index| format!("r{index}: allow any "))
        .collect()
}

fn leaves(count: usize) -> String {
    (0..count)
        .map(|index| format!("node n{index} {{}}\n"))
        .collect()
}

fn chain(count: usize) -> String {
    (0..count)
        .map(|index| format!("node n{index} {{"))
        .collect()
}

fn limits() -> Vec<KnownText> {
    let uses = "node a inside o0 between o31 below";
    let (all, less) = (operators(32), operators(31));
    let (rules, nodes) = (any_rules(1_024), leaves(255));
    let (deep, deepest) = (chain(15), chain(16));
    let texts = [
        (26, format!("{all}|operator 5")),
        (26, format!("{all}node |a below o1 {{}}")),
        (26, format!("{all}{uses} |parent {{}}")),
        (
            26,
            format!("{all}{uses} o1 {{ node b inside o1 between |sibling"),
        ),
        (26, format!("{less}node a below o1 {{ node |b {{")),
        (26, format!("{less}node |a {{")),
        (27, format!("node a {{ {rules}|x")),
        (27, format!("node a {{ {rules}|: allow any }}")),
        (27, format!("node a {{ {rules}node b {{|operator")),
        (13, format!("node a {{ {rules}node b {{}} |x: allow any")),
        (28, format!("node a {{ {nodes}|node")),
        (28, format!("node a {{ {nodes}|node 5 {{}}")),
        (29, format!("{deepest}node |a {{")),
        (
            29,
            format!("{deep}node b {{}} node c {{}}}}node d {{node e{{node |f inside x"),
        ),
        (10, format!("{deepest}node |}}")),
    ];
    let texts = texts.iter();
    let mut cases: Vec<KnownText> = texts
        .map(|(number, text)| faulty(*number, text, Nothing))
        .collect();
    let twice = format!("{deepest}node |n1").replacen("n1 ", "!n1 ", 1);
    cases.push(faulty(22, &twice, Place));
    cases
}

fn ends() -> Vec<KnownText> {
    let texts = [
        "node !a {|",
        "node !a { x: allow any\n# }\n|",
        "node a { node b {} node !c { node d {} |",
        "node !a { node b {} |",
    ];
    texts.iter().map(|text| faulty(30, text, Place)).collect()
}
