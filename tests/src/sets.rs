//! The sets of a file's atoms of which some packet in range meets all. They are gone
//! through one by one, and a packet is looked for value by value among those by which
//! the atoms can be told apart. Nothing here asks the model what two atoms have in common.

use crate::model::edition::NEWEST;
use crate::model::fields::Packet;
use crate::model::record::{RawRow, EMPTY};
use crate::numberings::{meets, suits};
use crate::passes::telling_values;

/// Atoms by their places, the first one's bit lowest: equal atoms are told apart.
type Set = u32;

/// Files of up to so many atoms have their sets counted.
pub const MOST_ATOMS_COUNTED: usize = 12;

/// One value of a packet, and the atoms that it suits.
struct Choice {
    value: u32,
    suits: Set,
}

/// How many sets there are, without the one of no atoms.
pub fn shared_sets(atoms: &[RawRow]) -> usize {
    assert!(atoms.len() <= MOST_ATOMS_COUNTED);
    let choices = choices(atoms);
    let sets = 1..1 << atoms.len();
    sets.filter(|set| has_packet(atoms, &choices, *set)).count()
}

/// For each value of a packet, what it may be. Some value suits all atoms of a set only
/// if one of these does: the number that one of them wants, or where none does one that
/// no atom wants, or a protocol with ports; and of nested prefixes the longest's address.
fn choices(atoms: &[RawRow]) -> Vec<Vec<Choice>> {
    let values = telling_values(atoms).into_iter().enumerate();
    let each = |(place, values): (usize, Vec<u32>)| {
        let choice = |value| Choice {
            value,
            suits: all(atoms, |atom| {
                atom.flags != EMPTY && suits(atom, place, value)
            }),
        };
        values.into_iter().map(choice).collect()
    };
    values.map(each).collect()
}

/// The places of the atoms for which this holds.
fn all(atoms: &[RawRow], holds: impl Fn(&RawRow) -> bool) -> Set {
    let places = (0..atoms.len()).filter(|place| holds(&atoms[*place]));
    places.map(|place| 1 << place).sum()
}

/// Whether each value can be one that suits the whole set. The packet that is made of
/// them is held against the atoms' words once more.
fn has_packet(atoms: &[RawRow], choices: &[Vec<Choice>], set: Set) -> bool {
    let mut packet = Packet::default();
    for (place, choices) in choices.iter().enumerate() {
        let Some(choice) = choices.iter().find(|choice| choice.suits & set == set) else {
            return false;
        };
        packet = packet.with(place, choice.value);
    }
    let right = Packet::read(&packet.words(NEWEST), NEWEST).is_ok();
    let mut places = (0..atoms.len()).filter(|place| set >> place & 1 != 0);
    assert!(right && places.all(|place| meets(&atoms[place], &packet)));
    true
}
