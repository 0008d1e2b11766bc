//! Known cases of captures: packets that are scanned in one table.

use super::{case, open, to, Known};
use crate::calls::Call;
use crate::model::action::Action::{Allow, Deny, Gmb};
use crate::model::capture::MOST_PACKETS;
use crate::model::edition::{PACKET_WORDS, ROW_WORDS};
use crate::model::fields::{Kind, Packet, KINDS};
use crate::model::matches::{Match, Prefix};
use crate::model::numbers::{NOT_A_TABLE, SHORT_ANSWERS, WRONG_CAPTURE, WRONG_PACKET, WRONG_ROW};
use crate::model::record::RawRow;
use crate::model::rows::MOST_ROWS;
use crate::tables::{packet_words, table_words};

const PING: u32 = 1;
const TCP: u32 = 6;

/// A ping to 10.7.3.9, to port 80 of 10.7.3.10 and of 10.8.0.1, and a ping to 10.8.0.1.
fn packets() -> [Packet; 4] {
    [
        packet(168231689, PING, 0),
        packet(168231690, TCP, 80),
        packet(168296449, TCP, 80),
        packet(168296449, PING, 0),
    ]
}

/// What the rows below answer for them.
const FOUND: [[u32; 3]; 4] = [[3, 40000, 1], [2, 0, 2], [1, 0, 3], [0, 0, 3]];

fn packet(destination: u32, protocol: u32, destination_port: u32) -> Packet {
    Packet {
        destination,
        protocol,
        destination_port,
        ..Packet::default()
    }
}

/// A rate is reserved to 10.7.3.9, 10.7.0.0/16 is denied, and port 80 is allowed.
fn rows() -> [RawRow; 3] {
    let (destination_port, open) = (Prefix::exactly(80), Match::default());
    let web = Match {
        destination_port,
        ..open
    };
    [
        to(Prefix::exactly(168231689), Gmb(40000)),
        to(Prefix::of(168230912, 16), Deny),
        web.raw(Allow),
    ]
}

/// A row of this in-port and no other, and a packet from there.
fn row_from(in_port: u32, rate: u32) -> RawRow {
    let (in_port, open) = (Prefix::exactly(in_port), Match::default());
    Match { in_port, ..open }.raw(Gmb(rate))
}

fn packet_from(in_port: u32) -> Packet {
    Packet {
        in_port,
        ..Packet::default()
    }
}

pub fn cases() -> Vec<Known> {
    let mut cases = few_packets();
    cases.extend(no_packets());
    cases.extend(most_packets());
    cases.extend(lengths());
    cases.extend(wrong_packets());
    cases.extend(wrong_tables());
    cases.extend(short_answers());
    cases
}

/// A capture that answers these words at the front of a buffer with so many more.
fn found(
    name: &'static str,
    rows: &[RawRow],
    packets: &[Packet],
    found: &[[u32; 3]],
    more: usize,
) -> Known {
    let behind = vec![9; more];
    let answer = [&[0, 0][..], found.as_flattened(), &behind].concat();
    let call = Call::Capture {
        table: table_words(rows),
        packets: packet_words(packets),
        answers: vec![9; answer.len() - 2],
    };
    case(name, call, answer)
}

/// A refused capture with an answer buffer of so many words, which stay.
fn refused(
    name: &'static str,
    refusal: [u32; 2],
    table: Vec<u32>,
    packets: Vec<u32>,
    room: usize,
) -> Known {
    let answers: Vec<u32> = (50..).take(room).collect();
    let answer = [&refusal[..], &answers].concat();
    let call = Call::Capture {
        table,
        packets,
        answers,
    };
    case(name, call, answer)
}

fn few_packets() -> Vec<Known> {
    let (rows, packets) = (rows(), packets());
    let [first, second, third, last] = packets;
    let [by_first, by_second, by_third, by_none] = FOUND;
    let turned = [last, third, second, first];
    let by_turned = [by_none, by_third, by_second, by_first];
    let repeated = [second, first, second, second];
    let by_repeated = [by_second, by_first, by_second, by_second];
    let [reserving, denying, web] = rows;
    let earlier = [denying, web, reserving];
    let by_earlier = [[2, 0, 1], [2, 0, 1], [1, 0, 2], [0, 0, 3]];
    let zeros = [RawRow::default(), reserving];
    vec![
        found("four packets", &rows, &packets, &FOUND, 0),
        found("four packets in more room", &rows, &packets, &FOUND, 4),
        found("four packets turned round", &rows, &turned, &by_turned, 1),
        found("rows in another order", &earlier, &packets, &by_earlier, 3),
        found("one packet, first row", &rows, &[first], &[by_first], 0),
        found("one packet, last row", &rows, &[third], &[by_third], 2),
        found("one packet, no row", &rows, &[last], &[by_none], 0),
        found("a packet thrice", &rows, &repeated, &by_repeated, 0),
        found("packets, no rows", &[], &packets, &[[0, 0, 0]; 4], 1),
        found("a row of zeros first", &zeros, &packets, &[[0, 0, 1]; 4], 0),
    ]
}

fn no_packets() -> Vec<Known> {
    vec![
        found("no packets, no rows", &[], &[], &[], 0),
        found("no packets, no rows, room", &[], &[], &[], 5),
        found("no packets, three rows", &rows(), &[], &[], 0),
        found("no packets, three rows, room", &rows(), &[], &[], 7),
    ]
}

/// The most packets: in few rows, and in the most rows, each met by one packet.
fn most_packets() -> Vec<Known> {
    let few = packets().repeat(MOST_PACKETS / 4);
    let by_few = FOUND.repeat(MOST_PACKETS / 4);
    let all = 0..MOST_ROWS as u32;
    let rows_of_all: Vec<RawRow> = all.clone().map(|port| row_from(port, port + 1)).collect();
    let backwards: Vec<Packet> = all.clone().rev().map(packet_from).collect();
    let by_all: Vec<[u32; 3]> = all.rev().map(|port| [3, port + 1, port + 1]).collect();
    let last = few.len() - 1;
    vec![
        found("4096 packets", &rows(), &few, &by_few, 0),
        found("4096 packets in more room", &rows(), &few, &by_few, 3),
        found("4095 packets", &rows(), &few[..last], &by_few[..last], 3),
        found("4096 packets, no rows", &[], &few, &[[0; 3]; 4_096], 1),
        found(
            "4096 packets in 4096 rows",
            &rows_of_all,
            &backwards,
            &by_all,
            0,
        ),
    ]
}

/// Words that are not whole packets or too many, whatever else is wrong.
fn lengths() -> Vec<Known> {
    let most = PACKET_WORDS * MOST_PACKETS;
    let near = most + 1..=most + PACKET_WORDS;
    let mut cases = Vec::new();
    for length in [1, 2, 3, 4, 5, 7, 11, 13, most - 1].into_iter().chain(near) {
        let room = 3 * length.div_ceil(PACKET_WORDS);
        let name = "not so many whole packets";
        let all_wrong = (vec![u32::MAX; length], vec![9; ROW_WORDS + 1]);
        for (packets, table, room) in [
            (vec![0; length], table_words(&rows()), room),
            (vec![0; length], vec![], 0),
            (all_wrong.0, all_wrong.1, 0),
        ] {
            cases.push(refused(name, [WRONG_CAPTURE, 0], table, packets, room));
        }
    }
    cases
}

/// One wrong packet refuses all of them, before a wrong table and a short buffer.
fn wrong_packets() -> Vec<Known> {
    let table = table_words(&rows());
    let wrong_row = vec![9; ROW_WORDS];
    let tables = [table.clone(), wrong_row, vec![0; ROW_WORDS - 1]];
    let mut cases = Vec::new();
    for (place, kind) in KINDS.list().into_iter().enumerate() {
        let Kind::Number { most, .. } = *kind else {
            continue;
        };
        for (at, packet) in packets().into_iter().enumerate() {
            let mut packets = packets();
            packets[at] = packet.with(place, most + 1);
            let packets = packet_words(&packets);
            for (table, room) in tables.iter().zip([12, 12, 11]) {
                let name = "a packet's value too large";
                let refusal = [WRONG_PACKET, at as u32];
                let (table, packets) = (table.clone(), packets.clone());
                cases.push(refused(name, refusal, table, packets, room));
            }
        }
    }
    let mut many = packet_words(&packets().repeat(MOST_PACKETS / 4));
    let (last, room) = (many.len() - 1, 3 * MOST_PACKETS);
    many[last] = u32::MAX;
    let behind = refused(
        "a wrong packet behind 4095",
        [WRONG_PACKET, 4_095],
        table.clone(),
        many.clone(),
        room,
    );
    many[PACKET_WORDS] = u32::MAX;
    let first = refused(
        "the first of two wrong packets",
        [WRONG_PACKET, 1],
        table.clone(),
        many,
        room,
    );
    let mut two = packet_words(&packets()[..2]);
    two[2 * PACKET_WORDS - 1] = 65_536;
    let short = refused("a wrong packet, no room", [WRONG_PACKET, 1], table, two, 0);
    cases.extend([behind, first, short]);
    cases
}

/// Wrong tables, with packets and with none, before a short buffer.
fn wrong_tables() -> Vec<Known> {
    let [reserving, denying, web] = rows();
    let mut wrong = web;
    wrong.rate = 1;
    let long = vec![0; ROW_WORDS * (MOST_ROWS + 1)];
    let empty = table_words(&[open(Allow), reserving, denying.emptied()]);
    let two_wrong = table_words(&[denying, wrong, wrong]);
    let behind = [&two_wrong[..], &[0]].concat();
    let mut cases = Vec::new();
    for count in [0, 1, 4] {
        for room in [0, 3 * count, 3 * count + 1] {
            let mut refused = |name, refusal, table: &[u32]| {
                let packets = packet_words(&packets()[..count]);
                cases.push(refused(name, refusal, table.to_vec(), packets, room));
            };
            refused("a capture in 10 words", [NOT_A_TABLE, 0], &[0; 10]);
            refused("a capture in 4097 rows", [NOT_A_TABLE, 0], &long);
            refused("wrong rows and a word", [NOT_A_TABLE, 0], &behind);
            refused("the first of two wrong rows", [WRONG_ROW, 1], &two_wrong);
            refused("a wrong row behind open", [WRONG_ROW, 2], &empty);
        }
    }
    cases
}

/// A buffer of fewer words than three for each packet.
fn short_answers() -> Vec<Known> {
    let table = table_words(&rows());
    let mut cases = Vec::new();
    let refused = |packets: &[Packet], table: &[u32], room| {
        let name = "too few words for the answers";
        let packets = packet_words(packets);
        refused(name, [SHORT_ANSWERS, 0], table.to_vec(), packets, room)
    };
    for room in 0..12 {
        cases.push(refused(&packets(), &table, room));
        cases.push(refused(&packets(), &[], room));
    }
    for room in [0, 1, 2] {
        cases.push(refused(&packets()[..1], &table, room));
    }
    let many = packets().repeat(MOST_PACKETS / 4);
    for room in [MOST_PACKETS, 2 * MOST_PACKETS, 3 * MOST_PACKETS - 1] {
        cases.push(refused(&many, &table, room));
    }
    cases
}
