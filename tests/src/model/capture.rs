//! Captures: packets that stand one behind the other, each scanned in one table.

use super::action::{Action, ACTION_WORDS};
use super::edition::{NEWEST, PACKET_WORDS};
use super::fields::Packet;
use super::numbers::{SHORT_ANSWERS, WRONG_CAPTURE, WRONG_PACKET};
use super::rows::{read_table, scan};
use super::{refusal, Refusal};

pub const MOST_PACKETS: usize = 4_096;

/// What is written for a packet: kind, rate and the rows tried.
pub const FOUND_WORDS: usize = ACTION_WORDS + 1;

/// The packets of a capture: refusals 19 and 11.
fn read_packets(words: &[u32]) -> Result<Vec<Packet>, Refusal> {
    if words.len() > PACKET_WORDS * MOST_PACKETS || !words.len().is_multiple_of(PACKET_WORDS) {
        return Err(refusal(WRONG_CAPTURE, 0));
    }
    let mut packets = Vec::new();
    for (place, words) in words.chunks(PACKET_WORDS).enumerate() {
        let packet = Packet::read(words, NEWEST);
        packets.push(packet.map_err(|_| refusal(WRONG_PACKET, place))?);
    }
    Ok(packets)
}

/// For each packet its action and how many rows were tried, if there is room for all.
pub fn capture(
    table: &[u32],
    packets: &[u32],
    room: usize,
) -> Result<Vec<(Action, usize)>, Refusal> {
    let packets = read_packets(packets)?;
    let rows = read_table(table)?;
    if room < FOUND_WORDS * packets.len() {
        return Err(refusal(SHORT_ANSWERS, 0));
    }
    Ok(packets.iter().map(|packet| scan(&rows, packet)).collect())
}
