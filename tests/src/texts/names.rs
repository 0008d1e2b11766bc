//! Drawn names, of which no two are alike.

use std::collections::HashSet;

use crate::model::notation::words::OWN_WORDS;
use crate::random::Random;

const LETTERS: &[u8] = b"abcdefghijklmnopqrstuvwxyzABCDEFGHIJKLMNOPQRSTUVWXYZ";
const IN_NAMES: &[u8] = b"aabbcdexyzAZ0189-_";
/// Names that say something else elsewhere, and such as are nearly own words.
const ODD: [&str; 14] = [
    "sibling",
    "parent",
    "Node",
    "ALLOW",
    "operators",
    "nod",
    "in-",
    "to_",
    "ports",
    "a",
    "b",
    "A",
    "anyone",
    "tcp6",
];

#[derive(Default)]
pub struct Names {
    given: HashSet<Vec<u8>>,
}

impl Names {
    /// Names that are none of these.
    pub fn without(names: &[&str]) -> Names {
        let given = names.iter().map(|name| name.as_bytes().to_vec());
        Names {
            given: given.collect(),
        }
    }

    pub fn fresh(&mut self, random: &mut Random) -> Vec<u8> {
        loop {
            let name = self.drawn(random);
            let own = OWN_WORDS.iter().any(|word| word.as_bytes() == name);
            if !own && self.given.insert(name.clone()) {
                return name;
            }
        }
    }

    fn drawn(&self, random: &mut Random) -> Vec<u8> {
        if random.percent(4) {
            return random.pick(&ODD).as_bytes().to_vec();
        }
        let length = match random.below(40) {
            0 => random.within(20, 90),
            1..=9 => random.within(0, 1),
            _ => random.within(2, 9),
        };
        let mut name = vec![random.pick(LETTERS)];
        name.extend((0..length).map(|_| random.pick(IN_NAMES)));
        name
    }
}
