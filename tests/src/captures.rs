//! What a capture must be, by single scans of the program under test; and which of
//! several faults it must be refused for, by those that were put in.

use crate::calls::{Call, PLACED_WORDS};
use crate::damage::some_place;
use crate::model::capture::FOUND_WORDS;
use crate::model::edition::NEWEST;
use crate::model::fields::{Packet, MOST_PORT};
use crate::model::numbers::{NOT_A_TABLE, SHORT_ANSWERS, WRONG_CAPTURE, WRONG_PACKET, WRONG_ROW};
use crate::model::record::RawRow;
use crate::ports::contradicted;
use crate::program::{Difference, Program};
use crate::properties::{ask, broken, Subject};
use crate::random::Random;
use crate::tables::{packet_words, table_words};
use crate::tally::Tally;

/// Captures have up to so many packets less one, and so do the words behind the answers.
const MANY: usize = 9;

/// The faults that a capture is refused for, in the order in which they count.
const FAULTS: [u32; 5] = [
    WRONG_CAPTURE,
    WRONG_PACKET,
    NOT_A_TABLE,
    WRONG_ROW,
    SHORT_ANSWERS,
];

/// Each packet's three words are what a single scan answers for it, in order, and
/// the words behind them stay.
pub fn captures_hold(
    program: &Program,
    random: &mut Random,
    subjects: &[Subject],
    tally: &mut Tally,
) -> Result<(), Difference> {
    let mut captures = Vec::new();
    let mut scans = Vec::new();
    for (place, subject) in subjects.iter().enumerate() {
        let packets = some_packets(random, subject, place % MANY);
        let table = table_words(&subject.rows);
        scans.extend(packets.iter().map(|packet| Call::Scan {
            table: table.clone(),
            packet: packet.words(NEWEST),
        }));
        let room = FOUND_WORDS * packets.len() + random.below(MANY);
        captures.push(Call::Capture {
            table,
            packets: packet_words(&packets),
            answers: random.words(room),
        });
    }
    let captured = ask(program, &captures, tally)?;
    let mut scanned = ask(program, &scans, tally)?.into_iter();
    for (place, (capture, answer)) in captures.into_iter().zip(captured).enumerate() {
        let scanned: Vec<Vec<u32>> = scanned.by_ref().take(place % MANY).collect();
        let found: Vec<&[u32]> = scanned.iter().map(|scan| &scan[PLACED_WORDS..]).collect();
        let mut expected = found.concat();
        expected.extend_from_slice(&lent_answers(&capture)[expected.len()..]);
        if answer[PLACED_WORDS..] != expected {
            return Err(broken(capture, "a capture is not its single scans"));
        }
        tally.properties += 1;
    }
    Ok(())
}

/// Captures with some faults in them, of which the first in order is answered, and
/// every word of the buffer stays. All sets of faults take turns.
pub fn faults_in_order(
    program: &Program,
    random: &mut Random,
    subjects: &[Subject],
    tally: &mut Tally,
) -> Result<(), Difference> {
    let mut calls = Vec::new();
    let mut refusals = Vec::new();
    for subject in subjects {
        let set = 1 + calls.len() % ((1 << FAULTS.len()) - 1);
        let faults = FAULTS.iter().enumerate();
        let faults = faults.filter(|(bit, _)| set >> bit & 1 != 0);
        let faults: Vec<u32> = faults.map(|(_, fault)| *fault).collect();
        let (call, places) = faulty(random, subject, &faults);
        calls.push(call);
        refusals.push([faults[0], places[0]]);
    }
    let answers = ask(program, &calls, tally)?;
    for ((refusal, answer), call) in refusals.into_iter().zip(answers).zip(calls) {
        if answer[..PLACED_WORDS] != refusal {
            return Err(broken(call, "not the first fault of a capture is refused"));
        }
        if answer[PLACED_WORDS..] != *lent_answers(&call) {
            return Err(broken(call, "a refused capture changes the buffer"));
        }
        tally.properties += 1;
    }
    Ok(())
}

/// A capture with these faults, and the place of each.
fn faulty(random: &mut Random, subject: &Subject, faults: &[u32]) -> (Call, Vec<u32>) {
    let mut rows = subject.rows.clone();
    if rows.is_empty() {
        rows.push(RawRow::default());
    }
    let count = random.within(1, MANY);
    let mut packets = some_packets(random, subject, count);
    let wrong_row = some_place(random, rows.len());
    let wrong_packet = some_place(random, packets.len());
    if faults.contains(&WRONG_ROW) {
        rows[wrong_row] = contradicted(random, &rows[wrong_row]);
    }
    if faults.contains(&WRONG_PACKET) {
        packets[wrong_packet].destination_port = MOST_PORT + 1;
    }
    let room = FOUND_WORDS * packets.len();
    let (mut table, mut packets) = (table_words(&rows), packet_words(&packets));
    let mut answers = random.words(room);
    let place = |fault: &u32| match *fault {
        WRONG_CAPTURE => {
            packets.push(0);
            0
        }
        WRONG_PACKET => wrong_packet,
        NOT_A_TABLE => {
            table.push(0);
            0
        }
        WRONG_ROW => wrong_row,
        _ => {
            answers.truncate(random.below(room));
            0
        }
    };
    let places = faults.iter().map(place).map(|place| place as u32).collect();
    let call = Call::Capture {
        table,
        packets,
        answers,
    };
    (call, places)
}

fn some_packets(random: &mut Random, subject: &Subject, count: usize) -> Vec<Packet> {
    let near = |_| subject.world.packet_near(random, &subject.rows);
    (0..count).map(near).collect()
}

/// The words of the answer buffer before the call.
fn lent_answers(call: &Call) -> &[u32] {
    match call {
        Call::Capture { answers, .. } => answers,
        _ => &[],
    }
}
