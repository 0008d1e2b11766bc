//! Known cases of an agent's calls: tables, packets and buffers as bytes.

use super::{case, Known};
use crate::calls::{put_bytes, to_bytes, words_of_bytes, Call, MOST_LENT_BYTES, WORD_BYTES};
use crate::model::agent::{ANSWER_BYTES, ANSWER_WORDS};
use crate::model::edition::{NEWEST, PACKET_WORDS, ROW_WORDS};
use crate::model::fields::{Kind, Packet, KINDS};
use crate::model::numbers::{NOT_A_TABLE, SHORT_BUFFER, WRONG_LENGTH, WRONG_PACKET, WRONG_ROW};
use crate::model::rows::MOST_ROWS;

type Word = [u8; WORD_BYTES];

/// A word of zeros, and one as a buffer may have it before a call.
const ZERO: Word = [0; WORD_BYTES];
const OLD: Word = [1, 2, 3, 4];
/// That one as it stands among an answer's words.
const OLD_WORD: u32 = 0x0403_0201;

/// The addresses 10.7.3.9, 10.7.3.10, 10.7.0.0 and 10.8.0.1.
const SERVER: Word = [9, 3, 7, 10];
const OTHER: Word = [10, 3, 7, 10];
const STUDIO: Word = [0, 0, 7, 10];
const OUTSIDE: Word = [1, 0, 8, 10];

/// The tenant's rows, byte for byte: 40,000 kbit/s to the server, a denial of
/// 10.7.0.0/16, and the first once more.
const RESERVING: [Word; ROW_WORDS] = row(SERVER, 32, [3, 0, 0, 0], [64, 156, 0, 0]);
const DENYING: [Word; ROW_WORDS] = row(STUDIO, 16, [2, 0, 0, 0], ZERO);
const TENANT: [[Word; ROW_WORDS]; 3] = [RESERVING, DENYING, RESERVING];

const ROW_BYTES: usize = WORD_BYTES * ROW_WORDS;
const PACKET_BYTES: usize = WORD_BYTES * PACKET_WORDS;

const fn row(destination: Word, length: u8, kind: Word, rate: Word) -> [Word; ROW_WORDS] {
    let mut row = [ZERO; ROW_WORDS];
    row[2] = destination;
    row[7] = [length, 0, 0, 0];
    row[9] = kind;
    row[10] = rate;
    row
}

fn tenant() -> Vec<u8> {
    TENANT.as_flattened().concat()
}

fn packet(destination: Word) -> Vec<u8> {
    [ZERO, ZERO, destination, ZERO, ZERO, ZERO].concat()
}

/// So many bytes as they may be before a call.
fn old(bytes: usize) -> Vec<u8> {
    OLD.into_iter().cycle().take(bytes).collect()
}

pub fn cases() -> Vec<Known> {
    let mut cases = scans();
    cases.extend(numberings());
    cases.extend(lengths());
    cases.extend(wrong_packets());
    cases.extend(wrong_tables());
    cases.extend(short_buffers());
    cases.extend(in_order());
    cases.extend(most_rows());
    cases.extend(most_bytes());
    cases
}

/// A scan that returns this number, and fills the answer's bytes with these words.
fn scan(
    name: &'static str,
    table: &[u8],
    packet: &[u8],
    number: u32,
    told: [u32; ANSWER_WORDS],
) -> Known {
    let answer = [&[number, ANSWER_BYTES as u32][..], &told].concat();
    let call = Call::AgentScan {
        table: table.to_vec(),
        packet: packet.to_vec(),
        answer: old(ANSWER_BYTES),
    };
    case(name, call, answer)
}

fn refused_scan(name: &'static str, table: &[u8], packet: &[u8], refusal: [u32; 2]) -> Known {
    let [number, place] = refusal;
    scan(name, table, packet, number, [place, 0, 0, 0])
}

/// A scan with an answer of so many bytes that writes nothing at all.
fn unwritten_scan(name: &'static str, table: &[u8], packet: &[u8], answer: usize) -> Known {
    let answer = old(answer);
    let unwritten = [&[WRONG_LENGTH][..], &words_of_bytes(&answer)].concat();
    let call = Call::AgentScan {
        table: table.to_vec(),
        packet: packet.to_vec(),
        answer,
    };
    case(name, call, unwritten)
}

/// A numbering in buffers of so many bytes, priorities and chain, whose first words are
/// afterwards these.
fn number(
    name: &'static str,
    table: &[u8],
    buffers: [usize; 2],
    number: u32,
    told: [u32; ANSWER_WORDS],
    written: [&[u32]; 2],
) -> Known {
    let mut answer = [&[number, ANSWER_BYTES as u32][..], &told].concat();
    for (bytes, written) in buffers.into_iter().zip(written) {
        answer.push(bytes as u32);
        answer.extend(written);
        answer.extend(vec![OLD_WORD; bytes / WORD_BYTES - written.len()]);
    }
    let [priorities, chain] = buffers.map(old);
    let call = Call::AgentNumber {
        table: table.to_vec(),
        priorities,
        chain,
        answer: old(ANSWER_BYTES),
    };
    case(name, call, answer)
}

/// A numbering that succeeds, with as many priorities as the chain has rows.
fn numbered(
    name: &'static str,
    table: &[u8],
    buffers: [usize; 2],
    priorities: &[u32],
    chain: &[u32],
) -> Known {
    let told = [0, chain.len() as u32, 0, 0];
    number(name, table, buffers, 0, told, [priorities, chain])
}

/// A refused numbering, which writes its answer and nothing else.
fn refused(name: &'static str, table: &[u8], buffers: [usize; 2], refusal: [u32; 2]) -> Known {
    let [refused, place] = refusal;
    number(name, table, buffers, refused, [place, 0, 0, 0], [&[]; 2])
}

/// A numbering that writes nothing at all.
fn unwritten(name: &'static str, table: &[u8], buffers: [usize; 2], answer: usize) -> Known {
    let ([priorities, chain], answer) = (buffers.map(old), old(answer));
    let mut unwritten = vec![WRONG_LENGTH];
    put_bytes(&[&answer, &priorities, &chain], &mut unwritten);
    let call = Call::AgentNumber {
        table: table.to_vec(),
        priorities,
        chain,
        answer,
    };
    case(name, call, unwritten)
}

fn scans() -> Vec<Known> {
    let found = |name, rows: usize, destination, told| {
        let table = TENANT[..rows].as_flattened().concat();
        scan(name, &table, &packet(destination), 0, told)
    };
    let port = [255, 255, 0, 0];
    let largest = [port, [255; 4], [255; 4], [255, 0, 0, 0], port, port].concat();
    let name = "agent, a packet of the largest values";
    vec![
        found("agent, K6", 3, SERVER, [0, 3, 40000, 1]),
        found("agent, K7", 3, OTHER, [0, 2, 0, 2]),
        found("agent, K8", 3, OUTSIDE, [0, 0, 0, 3]),
        found("agent, one row", 1, SERVER, [0, 3, 40000, 1]),
        found("agent, one row that is not met", 1, OTHER, [0, 0, 0, 1]),
        found("agent, no rows", 0, SERVER, [0, 0, 0, 0]),
        scan(name, &tenant(), &largest, 0, [0, 0, 0, 3]),
    ]
}

fn numberings() -> Vec<Known> {
    let [all, two, one, none] = [3, 2, 1, 0].map(|rows| TENANT[..rows].as_flattened().concat());
    let (all, first) = (&all[..], &one[..]);
    let apart = [row(SERVER, 32, ZERO, ZERO), row(OTHER, 32, ZERO, ZERO)];
    let apart = apart.as_flattened().concat();
    vec![
        numbered("agent, K9", all, [12, 12], &[3, 2, 1], &[0, 1, 2]),
        numbered("agent, K9 in room", all, [16, 20], &[3, 2, 1], &[0, 1, 2]),
        numbered("agent, two rows", &two, [8, 12], &[2, 1], &[0, 1]),
        numbered("agent, one row to number", first, [4, 4], &[1], &[0]),
        numbered("agent, no rows to number", &none, [0, 0], &[], &[]),
        numbered("agent, no rows in room", &none, [8, 4], &[], &[]),
        numbered("agent, rows apart", &apart, [12, 8], &[1, 1], &[0]),
    ]
}

/// Every length of every buffer, up to some bytes more than are needed.
fn lengths() -> Vec<Known> {
    let table = tenant();
    let mut cases = Vec::new();
    for length in (0..=2 * ANSWER_BYTES + 1).filter(|length| *length != ANSWER_BYTES) {
        let name = "an agent's answer of another length";
        cases.push(unwritten_scan(name, &table, &packet(OTHER), length));
        cases.push(unwritten(name, &table, [12, 12], length));
    }
    for length in (0..=PACKET_BYTES + 9).filter(|length| *length != PACKET_BYTES) {
        let name = "an agent's packet of another length";
        let mut packet = packet(OTHER);
        packet.resize(length, 0);
        cases.push(match length % WORD_BYTES {
            0 => refused_scan(name, &table, &packet, [WRONG_PACKET, 0]),
            _ => unwritten_scan(name, &table, &packet, ANSWER_BYTES),
        });
    }
    for length in (1..=ROW_BYTES + 5).filter(|length| length % ROW_BYTES != 0) {
        let name = "an agent's table of no whole rows";
        let (table, packet) = (&table[..length], packet(OTHER));
        cases.extend(match length % WORD_BYTES {
            0 => [
                refused_scan(name, table, &packet, [NOT_A_TABLE, 0]),
                refused(name, table, [12, 12], [NOT_A_TABLE, 0]),
            ],
            _ => [
                unwritten_scan(name, table, &packet, ANSWER_BYTES),
                unwritten(name, table, [12, 12], ANSWER_BYTES),
            ],
        });
    }
    for length in (0..=21).filter(|length| *length < 12 || length % WORD_BYTES != 0) {
        let name = "an agent's priorities or chain of another length";
        for buffers in [[length, 12], [12, length], [length, length]] {
            cases.push(match length % WORD_BYTES {
                0 => refused(name, &table, buffers, [SHORT_BUFFER, 0]),
                _ => unwritten(name, &table, buffers, ANSWER_BYTES),
            });
        }
    }
    cases
}

/// Each value one too large, or too large in its highest byte only.
fn wrong_packets() -> Vec<Known> {
    let name = "an agent's packet with a value too large";
    let mut cases = Vec::new();
    for (place, kind) in KINDS.list().into_iter().enumerate() {
        let Kind::Number { most, .. } = *kind else {
            continue;
        };
        for value in [most + 1, 1 << 24, 1 << 31] {
            let packet = to_bytes(&Packet::default().with(place, value).words(NEWEST));
            for table in [tenant(), vec![]] {
                cases.push(refused_scan(name, &table, &packet, [WRONG_PACKET, 0]));
            }
        }
    }
    cases
}

/// The first of two wrong rows, or one alone: by a word of the match and of the action.
fn wrong_tables() -> Vec<Known> {
    let name = "an agent's table with a wrong row";
    let mut cases = Vec::new();
    for place in 0..TENANT.len() {
        for (word, value) in [(7, [33, 0, 0, 0]), (8, [16, 0, 0, 0]), (9, [0, 0, 0, 1])] {
            let mut rows = TENANT;
            rows[place][word] = value;
            rows[TENANT.len() - 1][word] = value;
            let (table, refusal) = (rows.as_flattened().concat(), [WRONG_ROW, place as u32]);
            cases.push(refused_scan(name, &table, &packet(SERVER), refusal));
            cases.push(refused(name, &table, [16, 12], refusal));
        }
    }
    cases
}

/// Priorities or a chain of fewer words than rows, although the chain needs two only.
fn short_buffers() -> Vec<Known> {
    let rows = [RESERVING, row(OTHER, 32, ZERO, ZERO), DENYING];
    let table = rows.as_flattened().concat();
    let name = "an agent's buffers and three rows";
    let short = |buffers| refused(name, &table, buffers, [SHORT_BUFFER, 0]);
    vec![
        numbered(name, &table, [12, 12], &[2, 2, 1], &[0, 2]),
        short([8, 12]),
        short([12, 8]),
        short([0, 16]),
        short([16, 0]),
    ]
}

/// The first of several faults, with all later ones behind it.
fn in_order() -> Vec<Known> {
    let name = "several faults of an agent's call";
    let bytes = [255; ROW_BYTES + WORD_BYTES + 1];
    let (no_words, no_rows) = (&bytes[..], &bytes[..ROW_BYTES + WORD_BYTES]);
    let wrong_row = &bytes[..ROW_BYTES];
    let wrong_packet = &bytes[..PACKET_BYTES];
    let mut cases = vec![
        refused_scan(name, wrong_row, wrong_packet, [WRONG_PACKET, 0]),
        refused_scan(name, no_rows, wrong_packet, [WRONG_PACKET, 0]),
        refused(name, no_rows, [0, 0], [NOT_A_TABLE, 0]),
        refused(name, wrong_row, [0, 0], [WRONG_ROW, 0]),
        unwritten(name, no_words, [0, 0], ANSWER_BYTES),
        unwritten(name, no_rows, [1, 0], ANSWER_BYTES),
        unwritten(name, no_rows, [0, 0], ANSWER_BYTES - WORD_BYTES),
        unwritten(name, wrong_row, [0, 2], ANSWER_BYTES),
        unwritten(name, wrong_row, [0, 0], ANSWER_BYTES + 1),
        unwritten(name, &tenant(), [11, 8], ANSWER_BYTES),
        unwritten(name, &tenant(), [8, 13], ANSWER_BYTES),
        unwritten(name, &tenant(), [8, 8], 0),
        unwritten(name, &tenant(), [13, 14], ANSWER_BYTES + 3),
    ];
    for packet in [wrong_packet, &wrong_packet[4..], &wrong_packet[1..]] {
        cases.push(unwritten_scan(name, no_words, packet, ANSWER_BYTES));
        cases.push(unwritten_scan(name, no_rows, packet, ANSWER_BYTES - 1));
        cases.push(unwritten_scan(name, wrong_row, packet, 2 * ANSWER_BYTES));
        cases.push(unwritten_scan(name, &[], packet, 0));
    }
    cases
}

/// The most rows, which all overlap, and one more.
fn most_rows() -> Vec<Known> {
    let last = MOST_ROWS as u32 - 1;
    let all = DENYING.concat().repeat(MOST_ROWS);
    let over = DENYING.concat().repeat(MOST_ROWS + 1);
    let mut last_wrong = all.clone();
    last_wrong[ROW_BYTES * MOST_ROWS - 1] = 1;
    let last_of_over = [&last_wrong[..], &DENYING.concat()].concat();
    let priorities: Vec<u32> = (1..=last + 1).rev().collect();
    let chain: Vec<u32> = (0..=last).collect();
    let exact = WORD_BYTES * MOST_ROWS;
    let short = exact - WORD_BYTES;
    let (inside, outside) = (packet(SERVER), packet(OUTSIDE));
    let met = "agent, 4096 rows";
    let over_one = "agent, 4097 rows";
    let behind = "agent, a wrong row behind 4095";
    let one_short = "agent, 4095 words for 4096 rows";
    vec![
        scan(met, &all, &inside, 0, [0, 2, 0, 1]),
        scan(met, &all, &outside, 0, [0, 0, 0, last + 1]),
        refused_scan(behind, &last_wrong, &inside, [WRONG_ROW, last]),
        refused_scan(over_one, &over, &inside, [NOT_A_TABLE, 0]),
        refused_scan(over_one, &last_of_over, &inside, [NOT_A_TABLE, 0]),
        numbered(met, &all, [exact, exact], &priorities, &chain),
        refused(behind, &last_wrong, [short, exact], [WRONG_ROW, last]),
        refused(over_one, &over, [exact, short], [NOT_A_TABLE, 0]),
        refused(one_short, &all, [short, exact], [SHORT_BUFFER, 0]),
        refused(one_short, &all, [exact, short], [SHORT_BUFFER, 0]),
    ]
}

/// Buffers of as many bytes as are sent at most.
fn most_bytes() -> Vec<Known> {
    let name = "an agent's longest buffers";
    let mut bytes = DENYING.concat().repeat(MOST_ROWS + 2);
    bytes.truncate(MOST_LENT_BYTES);
    let (longest, all) = (&bytes[..], &bytes[..ROW_BYTES * MOST_ROWS]);
    let both = [MOST_LENT_BYTES; 2];
    vec![
        refused_scan(name, longest, &packet(SERVER), [NOT_A_TABLE, 0]),
        refused_scan(name, all, longest, [WRONG_PACKET, 0]),
        unwritten_scan(name, all, &packet(SERVER), MOST_LENT_BYTES),
        unwritten_scan(name, longest, longest, MOST_LENT_BYTES),
        numbered(name, &tenant(), both, &[3, 2, 1], &[0, 1, 2]),
        refused(name, longest, both, [NOT_A_TABLE, 0]),
        unwritten(name, longest, both, MOST_LENT_BYTES),
        unwritten(name, longest, [MOST_LENT_BYTES - 1; 2], ANSWER_BYTES),
    ]
}
