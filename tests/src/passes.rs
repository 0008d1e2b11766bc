//! What a pass that takes hidden rows out must be, by the packets that tell
//! whether a row lies inside another. Nothing here asks the model what a row meets.

use crate::model::action::{ACTION_WORDS, DONT_CARE};
use crate::model::fields::{Kind, FIELD_COUNT, KINDS, WITH_PORTS};
use crate::model::hidden::inside;
use crate::model::matches::WORD_BITS;
use crate::model::record::RawRow;
use crate::model::rows::read_table;
use crate::numberings::{action_words, lengths, suits};
use crate::tables::table_words;

/// Rows by their bits, the first row's lowest. So a table has at most 64.
type Rows = u64;

/// For each value of a packet, what it may be.
type Values = [Vec<u32>; FIELD_COUNT];

/// What is amiss with the rows that a pass over a table left.
pub fn pass_fault(rows: &[RawRow], left: &[RawRow]) -> Option<&'static str> {
    let values = telling_values(rows);
    let met = met_by_packets(rows, &values);
    let around = rows_around(rows.len(), &met);

    if !model_agrees(rows, &around) {
        return Some("the model's test of inside is not the one by packets");
    }
    let Some(stayed) = places(rows, left) else {
        return Some("the rows that stay are not rows of the table in their order");
    };
    for (place, around) in around.iter().enumerate() {
        let hidden = around & earlier(place) != 0;
        match (hidden, stayed & bit(place) != 0) {
            (true, true) => return Some("a row stays that lies inside an earlier one"),
            (false, false) => return Some("a row goes that lies inside no earlier one"),
            _ => {}
        }
    }
    let mut packets = met.iter().zip(met_by_packets(left, &values));
    if !packets.all(|(before, after)| first_action(rows, *before) == first_action(left, after)) {
        return Some("the scan's action changes");
    }
    None
}

fn bit(place: usize) -> Rows {
    1 << place
}

/// All the rows before a place.
fn earlier(place: usize) -> Rows {
    bit(place) - 1
}

/// Values by which rows can be told apart. If a row does not lie inside another
/// then some value of it suits the one and not the other, and one is among these:
/// where the other is written with a number, that of the row or one that no row is
/// written with, and for a row that wants a port a protocol that has ports; where
/// the other has a prefix, the row's own address if that lies outside, else the
/// address that differs in the prefix's last bit.
pub fn telling_values(rows: &[RawRow]) -> Values {
    std::array::from_fn(|place| {
        let mut values = match *KINDS.list()[place] {
            Kind::Number { flag, .. } => telling_numbers(rows, place, flag),
            Kind::Address => telling_addresses(rows, place),
        };
        values.sort_unstable();
        values.dedup();
        values
    })
}

/// The numbers that rows are constrained to, the protocols with ports, and one that
/// is none of these.
fn telling_numbers(rows: &[RawRow], place: usize, flag: u32) -> Vec<u32> {
    let constrained = rows.iter().filter(|row| row.flags & flag != 0);
    let mut numbers: Vec<u32> = constrained.map(|row| *row.values.list()[place]).collect();
    if flag == KINDS.protocol.flag() {
        numbers.extend(WITH_PORTS);
    }
    numbers.extend((0..).find(|number| !numbers.contains(number)));
    numbers
}

/// The addresses that rows are written with, and those just outside their prefixes.
fn telling_addresses(rows: &[RawRow], place: usize) -> Vec<u32> {
    let mut addresses = Vec::new();
    for row in rows {
        let (address, length) = (*row.values.list()[place], *lengths(row).list()[place]);
        addresses.push(address);
        if length > 0 {
            addresses.push(address ^ 1 << (WORD_BITS - length));
        }
    }
    addresses
}

/// For every packet of these values, the rows that it meets.
fn met_by_packets(rows: &[RawRow], values: &Values) -> Vec<Rows> {
    let mut met = vec![Rows::MAX];
    for (place, values) in values.iter().enumerate() {
        let suited = |value: u32| -> Rows {
            let suited = (0..rows.len()).filter(|row| suits(&rows[*row], place, value));
            suited.map(bit).sum()
        };
        let suited: Vec<Rows> = values.iter().map(|value| suited(*value)).collect();
        let each = |met: Rows| suited.iter().map(move |suited| met & suited);
        met = met.into_iter().flat_map(each).collect();
    }
    met
}

/// For each row, those that are met by every packet that meets it.
fn rows_around(rows: usize, met: &[Rows]) -> Vec<Rows> {
    let mut around = vec![Rows::MAX; rows];
    for &met in met {
        let mut left = met;
        while left != 0 {
            around[left.trailing_zeros() as usize] &= met;
            left &= left - 1;
        }
    }
    around
}

fn model_agrees(rows: &[RawRow], around: &[Rows]) -> bool {
    let table = read_table(&table_words(rows)).expect("right rows");
    (0..rows.len()).all(|one| {
        let by_packets = |two: usize| around[one] & bit(two) != 0;
        (0..rows.len()).all(|two| inside(&table[one], &table[two]) == by_packets(two))
    })
}

/// Where the rows that are left stood, each behind the one before it.
fn places(rows: &[RawRow], left: &[RawRow]) -> Option<Rows> {
    let mut from = 0;
    let mut places = 0;
    for row in left {
        let place = from + rows[from..].iter().position(|one| one == row)?;
        places |= bit(place);
        from = place + 1;
    }
    Some(places)
}

/// The action of the first of the rows that are met.
fn first_action(rows: &[RawRow], met: Rows) -> [u32; ACTION_WORDS] {
    let first = rows.get(met.trailing_zeros() as usize);
    first.map_or([DONT_CARE, 0], action_words)
}
