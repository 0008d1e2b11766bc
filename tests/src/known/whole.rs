//! Texts that are read, and files, with their whole answers.

use super::notation::KnownText;
use crate::frames::Frame;
use crate::model::notation::answers::REFUSED;
use crate::model::numbers::{BROKEN_LAW, ENDS_EARLY};

pub fn cases() -> Vec<KnownText> {
    let mut cases = read_texts();
    cases.extend(files());
    cases
}

fn read_as(name: &str, text: &str, answer: &[u32]) -> KnownText {
    KnownText {
        name: name.to_string(),
        frame: Frame::Text(text.as_bytes().to_vec()),
        answer: answer.to_vec(),
    }
}

const SIBLING: [u32; 9] = [1, 2, 4, 2, 2, 2, 3, 2, 5];
const PARENT: [u32; 9] = [1, 2, 4, 1, 2, 4, 3, 2, 5];
const NAME_OF_SIBLING: [u32; 8] = [7, 115, 105, 98, 108, 105, 110, 103];
const NAME_OF_PARENT: [u32; 7] = [6, 112, 97, 114, 101, 110, 116];

fn read_texts() -> Vec<KnownText> {
    vec![
        read_as("the least text", "node a{}", &least()),
        read_as("a text with its places", TEXT, &places()),
    ]
}

fn least() -> Vec<u32> {
    let file = [&[2][..], &SIBLING, &PARENT, &[0, 1, 0, 1, 0, 0, 0]].concat();
    [
        &[0, 2, 5][..],
        &NAME_OF_SIBLING,
        &SIBLING,
        &[5],
        &NAME_OF_PARENT,
        &PARENT,
        &[1, 5, 1, 97, 1, 0, 0, 1, 0, 26],
        &file,
    ]
    .concat()
}

fn places() -> Vec<u32> {
    let atoms = [
        [0, 0, 168_230_912, 0, 0, 0, 0, 16, 0, 2, 0],
        [0, 0, 0, 0, 0, 0, 0, 0, 16, 3, 100_000_000],
        [7, 167_772_160, 168_231_689, 6, 80, 443, 8, 32, 15, 0, 0],
        [0, 0, 0, 1, 0, 5, 0, 0, 10, 1, 0],
    ];
    let labels: [(u32, &[u32]); 4] = [
        (60, &[1, 120]),
        (85, &[1, 121]),
        (116, &[1, 122]),
        (206, &[2, 118, 49]),
    ];
    let rules = labels.iter().zip(&atoms);
    let rules: Vec<Vec<u32>> = rules
        .map(|((place, label), atom)| [&[*place], *label, atom].concat())
        .collect();
    let words = [
        &[2][..],
        &PARENT,
        &SIBLING,
        &[4],
        &atoms.concat(),
        &[2, 0, 0, 1, 3, 1, 1, 1, 1, 1, 0],
    ]
    .concat();
    [
        &[0, 2, 9][..],
        &NAME_OF_PARENT,
        &PARENT,
        &[21],
        &NAME_OF_SIBLING,
        &SIBLING,
        &[2, 21, 2, 97, 98, 1, 0, 1, 0, 3],
        &rules[..3].concat(),
        &[184, 1, 99, 2, 1, 1, 1, 1],
        &rules[3],
        &[words.len() as u32],
        &words,
    ]
    .concat()
}

/// Its lines begin at the bytes 0, 16, 41, 58, 83, 114, 177, 202 and 231.
const TEXT: &str = "\
operator parent
node ab # {} inside none
 inside parent {
  x: deny to 10.7.0.0/16
  y : reserve 100 Gbit/s never
  z:none in 7 tcp from 10.0.0.0/8 port 80 to 10.7.3.9 port 443
  node c below sibling {
    v1: allow icmp to port 5
}}
";

fn files() -> Vec<KnownText> {
    let file = |name: &str, words: &[u32], answer: &[u32]| KnownText {
        name: name.to_string(),
        frame: Frame::File(words.to_vec()),
        answer: answer.to_vec(),
    };
    let printed = |name: &str, words: &[u32], text: &str| {
        let bytes = text.bytes().map(u32::from);
        let answer: Vec<u32> = [0, text.len() as u32].into_iter().chain(bytes).collect();
        file(name, words, &answer)
    };
    let broken = [&[1][..], &PARENT, &[0, 1, 0, 0, 0, 0, 0]].concat();
    let tenant = [&[2][..], &SIBLING, &PARENT, &TENANT].concat();
    let adding = [&[1][..], &ADDING, &OF_ADDING].concat();
    vec![
        file("of no words", &[], &[REFUSED + ENDS_EARLY, 0]),
        file("with a broken law", &broken, &[REFUSED + BROKEN_LAW, 0]),
        printed("of the tenant", &tenant, TENANT_TEXT),
        printed("with an operator that adds", &adding, ADDING_TEXT),
    ]
}

/// The tenant's atoms and nodes.
const TENANT: [u32; 34] = [
    2, //
    0, 0, 168230912, 0, 0, 0, 0, 16, 0, 2, 0, //
    0, 0, 168231689, 0, 0, 0, 0, 32, 0, 3, 40000, //
    2,     //
    0, 1, 0, 1, 1, //
    0, 1, 0, 1, 0,
];

const TENANT_TEXT: &str = "\
operator sibling
operator parent

node node-0 {
    rule-0: deny to 10.7.0.0/16

    node node-1 {
        rule-1: reserve 40 Mbit/s to 10.7.3.9
    }
}
";

const ADDING: [u32; 9] = [1, 2, 4, 2, 2, 2, 3, 2, 7];
const OF_ADDING: [u32; 66] = [
    4, //
    0, 0, 0, 0, 0, 0, 0, 0, 16, 3, 1000000, //
    0, 0, 0, 1, 0, 5, 0, 0, 10, 1, 0, //
    7, 167772160, 168231689, 47, 80, 443, 8, 32, 15, 0, 0, //
    0, 0, 0, 0, 0, 0, 0, 0, 0, 3, 1500, //
    4,    //
    0, 0, 0, 0, 2, //
    0, 0, 0, 1, 0, //
    0, 0, 0, 2, 1, //
    0, 0, 0, 1, 0, //
];

const ADDING_TEXT: &str = "\
operator operator-0 {
              allow     deny      reserve
    allow     allow     deny      right
    deny      deny      deny      deny
    reserve   left      deny      sum
}

node node-0 inside operator-0 between operator-0 below operator-0 {
    node node-1 inside operator-0 between operator-0 below operator-0 {
        rule-0: reserve 1 Gbit/s never
    }

    node node-2 inside operator-0 between operator-0 below operator-0 {
        rule-1: allow icmp to port 5
        rule-2: none in 7 protocol 47 from 10.0.0.0/8 port 80 to 10.7.3.9 port 443

        node node-3 inside operator-0 between operator-0 below operator-0 {
            rule-3: reserve 1500 kbit/s any
        }
    }
}
";
