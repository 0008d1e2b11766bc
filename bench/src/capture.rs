//! The capture: a scan for each of many packets, in a table that is checked once.

use crate::action::ACTION_WORDS;
use crate::flow::{KIND, RATE, is_right};
use crate::numbers;
use crate::table::{Wrong, check, first_match};

pub const MOST_PACKETS: usize = 4096;

/// What is found for a packet: kind, rate and the rows tried.
pub const FOUND_WORDS: usize = ACTION_WORDS + 1;

/// Writes what is found for each packet, in order, and answers how many packets there are.
#[inline(never)]
pub fn capture(table: &[u32], packets: &[u32], answers: &mut [u32]) -> Result<usize, Wrong> {
    let (packets, rest) = packets.as_chunks();
    if !rest.is_empty() || packets.len() > MOST_PACKETS {
        return Err((numbers::CAPTURE, 0));
    }
    if let Some(wrong) = packets.iter().position(|packet| !is_right(packet)) {
        return Err((numbers::PACKET, wrong));
    }
    let rows = check(table)?;
    let answers = answers.as_chunks_mut::<FOUND_WORDS>().0;
    if answers.len() < packets.len() {
        return Err((numbers::ANSWERS, 0));
    }
    for (packet, found) in packets.iter().zip(answers) {
        *found = match first_match(rows, packet) {
            Some(place) => [rows[place][KIND], rows[place][RATE], place as u32 + 1],
            None => [0, 0, rows.len() as u32],
        };
    }
    Ok(packets.len())
}
