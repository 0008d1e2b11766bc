//! What a numbering must be, by the packets that the rows of a world can be told
//! apart by. What a row meets is read from its words, and the model's tests are held
//! against that.

use crate::model::action::ACTION_WORDS;
use crate::model::fields::{Fields, Kind, Packet, KINDS, WITH_PORTS};
use crate::model::matches::WORD_BITS;
use crate::model::priorities::overlap;
use crate::model::record::{RawRow, EMPTY};
use crate::model::rows::{read_table, Row};
use crate::ports::constrains_port;
use crate::properties::Subject;
use crate::tables::table_words;

/// What is amiss with a numbering of the table.
pub fn numbering_fault(
    subject: &Subject,
    levels: usize,
    priorities: &[u32],
    chain: &[u32],
) -> Option<&'static str> {
    let rows = &subject.rows;
    let packets = subject.world.packets();
    let meeting: Vec<Vec<u64>> = rows.iter().map(|row| packets_met(row, &packets)).collect();
    let overlaps = |one: usize, two: usize| common_packet(&meeting[one], &meeting[two]);

    let table = match read_table(&table_words(rows)) {
        Ok(table) if meeting.iter().all(|met| common_packet(met, met)) => table,
        _ => return Some("a row is wrong, or no packet meets it"),
    };
    if !model_meets(&table, &packets, &meeting) {
        return Some("the model's test of a packet is not the one by words");
    }
    if !model_agrees(&table, overlaps) {
        return Some("the model's overlap test is not the one by packets");
    }
    if priorities.iter().any(|p| *p == 0 || *p as usize > levels) {
        return Some("a priority lies outside 1 to their count");
    }
    for later in 0..rows.len() {
        for earlier in 0..later {
            if overlaps(earlier, later) && priorities[earlier] <= priorities[later] {
                return Some("an earlier overlapping row has no higher priority");
            }
        }
    }
    let obeys = |packet| switch_obeys_scan(rows, priorities, |row| is_met(&meeting[row], packet));
    if !(0..packets.len()).all(obeys) {
        return Some("a switch does not do what the scan does");
    }
    if longest_chain(rows.len(), overlaps) != levels {
        return Some("the priority count is not the longest chain");
    }
    chain_fault(levels, chain, overlaps)
}

fn chain_fault(
    levels: usize,
    chain: &[u32],
    overlaps: impl Fn(usize, usize) -> bool,
) -> Option<&'static str> {
    if chain.len() != levels {
        return Some("the chain is not as long as the priority count");
    }
    for step in chain.windows(2) {
        if step[0] >= step[1] || !overlaps(step[0] as usize, step[1] as usize) {
            return Some("the chain does not go down overlapping rows");
        }
    }
    None
}

/// Whether the model has each row met by exactly the packets of its bits.
fn model_meets(table: &[Row], packets: &[Packet], meeting: &[Vec<u64>]) -> bool {
    table.iter().zip(meeting).all(|(row, bits)| {
        let mut places = packets.iter().enumerate();
        places.all(|(place, packet)| row.matching.meets(packet) == is_met(bits, place))
    })
}

fn model_agrees(table: &[Row], overlaps: impl Fn(usize, usize) -> bool) -> bool {
    (0..table.len()).all(|one| {
        (0..table.len()).all(|two| overlap(&table[one], &table[two]) == overlaps(one, two))
    })
}

/// The most rows in a chain of overlapping rows, each from a row downwards:
/// worked out from the last row back, and not from the first row on.
fn longest_chain(rows: usize, overlaps: impl Fn(usize, usize) -> bool) -> usize {
    let mut from = vec![1; rows];
    for row in (0..rows).rev() {
        for later in row + 1..rows {
            if overlaps(row, later) {
                from[row] = from[row].max(1 + from[later]);
            }
        }
    }
    from.into_iter().max().unwrap_or(0)
}

/// Every matching row of highest priority has the first matching row's action.
fn switch_obeys_scan(rows: &[RawRow], priorities: &[u32], meets: impl Fn(usize) -> bool) -> bool {
    let matching: Vec<usize> = (0..rows.len()).filter(|row| meets(*row)).collect();
    let Some(highest) = matching.iter().map(|row| priorities[*row]).max() else {
        return true;
    };
    matching
        .iter()
        .filter(|row| priorities[**row] == highest)
        .all(|row| action_words(&rows[*row]) == action_words(&rows[matching[0]]))
}

/// One bit for each packet that meets the row.
fn packets_met(row: &RawRow, packets: &[Packet]) -> Vec<u64> {
    let mut bits = vec![0; packets.len().div_ceil(64)];
    for (place, packet) in packets.iter().enumerate() {
        if meets(row, packet) {
            bits[place / 64] |= 1 << (place % 64);
        }
    }
    bits
}

fn is_met(bits: &[u64], packet: usize) -> bool {
    bits[packet / 64] >> (packet % 64) & 1 != 0
}

fn common_packet(one: &[u64], two: &[u64]) -> bool {
    one.iter().zip(two).any(|(a, b)| a & b != 0)
}

pub fn action_words(row: &RawRow) -> [u32; ACTION_WORDS] {
    [row.kind, row.rate]
}

/// Whether a packet meets a row or an atom, straight from what is written and bit by bit.
pub fn meets(row: &RawRow, packet: &Packet) -> bool {
    let mut values = packet.list().into_iter().enumerate();
    row.flags != EMPTY && values.all(|(place, value)| suits(row, place, *value))
}

/// Whether one value of a packet is as a row wants it. Who wants a port wants a
/// protocol that has ports.
pub fn suits(row: &RawRow, place: usize, value: u32) -> bool {
    let given = *row.values.list()[place];
    let bit = |word: u32, place: u32| word >> (WORD_BITS - 1 - place) & 1;
    match *KINDS.list()[place] {
        Kind::Number { flag, .. } => {
            let without_ports = flag == KINDS.protocol.flag() && !WITH_PORTS.contains(&value);
            (row.flags & flag == 0 || given == value) && !(without_ports && constrains_port(row))
        }
        Kind::Address => {
            let length = *lengths(row).list()[place];
            (0..length).all(|place| bit(given, place) == bit(value, place))
        }
    }
}

/// The prefix lengths of a row, at the places of their addresses.
pub fn lengths(row: &RawRow) -> Fields<u32> {
    Fields {
        source: row.source_length,
        destination: row.destination_length,
        ..Fields::default()
    }
}
