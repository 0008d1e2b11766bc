//! What an agent's calls must be, by scans and numberings of the program under test over the
//! same words; which of several faults they must be refused for, by those that were put in;
//! and what they must leave as it was, byte by byte.

use crate::calls::{buffers_of_answer, to_bytes, to_words, Call, PLACED_WORDS, WORD_BYTES};
use crate::damage::{some_place, spoil_lengths};
use crate::model::agent::{ANSWER_BYTES, VALUES};
use crate::model::edition::{NEWEST, ROW_WORDS};
use crate::model::fields::MOST_PORT;
use crate::model::numbers::{NOT_A_TABLE, SHORT_BUFFER, WRONG_LENGTH, WRONG_PACKET, WRONG_ROW};
use crate::model::record::RawRow;
use crate::ports::contradicted;
use crate::program::{Difference, Program};
use crate::properties::{ask, broken, Subject};
use crate::random::Random;
use crate::tables::table_words;
use crate::tally::Tally;

/// Priorities and chain have up to so many words less one behind those of the rows.
const MANY: usize = 9;

/// The faults of a scan, then those of a numbering, in the order in which they count.
const ORDERS: [[u32; 4]; 2] = [
    [WRONG_LENGTH, WRONG_PACKET, NOT_A_TABLE, WRONG_ROW],
    [WRONG_LENGTH, NOT_A_TABLE, WRONG_ROW, SHORT_BUFFER],
];
/// All of them.
const FAULTS: [u32; 5] = [
    WRONG_LENGTH,
    WRONG_PACKET,
    NOT_A_TABLE,
    WRONG_ROW,
    SHORT_BUFFER,
];

/// What a scan and a numbering are lent, as words, and which row is wrong if one is.
struct Lent {
    table: Vec<u32>,
    packet: Vec<u32>,
    priorities: Vec<u32>,
    chain: Vec<u32>,
    wrong_row: usize,
}

/// A call over words, the same of an agent, and the number and place that are due.
struct Asked {
    by_words: Call,
    of_agent: Call,
    due: [u32; PLACED_WORDS],
}

/// An agent is told what is found in the same words: without a fault; with faults, of
/// which all sets take turns; and with all lengths modulo a word, which take turns too.
pub fn agents_hold(
    program: &Program,
    random: &mut Random,
    subjects: &[Subject],
    tally: &mut Tally,
) -> Result<(), Difference> {
    let mut asked = Vec::new();
    for (turn, subject) in subjects.iter().enumerate() {
        let faults = FAULTS.iter().enumerate();
        let faults = faults.filter(|(bit, _)| turn >> bit & 1 != 0);
        let faults: Vec<u32> = faults.map(|(_, fault)| *fault).collect();
        asked.extend(asked_with(random, subject, &[]));
        asked.extend(asked_with(random, subject, &faults));
        asked.extend(asked_at_lengths(random, subject, turn));
    }
    let wrong_length = |asked: &Asked| asked.due[0] == WRONG_LENGTH;
    let (unwritten, told) = asked.into_iter().partition(wrong_length);
    nothing_written(program, unwritten, tally)?;
    told_as_by_words(program, told, tally)
}

/// A wrong length leaves every byte, those of the answer too.
fn nothing_written(
    program: &Program,
    asked: Vec<Asked>,
    tally: &mut Tally,
) -> Result<(), Difference> {
    let calls: Vec<Call> = asked.into_iter().map(|asked| asked.of_agent).collect();
    let answers = ask(program, &calls, tally)?;
    for (call, answer) in calls.into_iter().zip(answers) {
        if answer[0] != WRONG_LENGTH {
            return Err(broken(call, "a wrong length is not refused"));
        }
        let after = buffers_of_answer(&answer);
        if lent_for_writing(&call).into_iter().ne(&after) {
            return Err(broken(call, "a wrong length changes a buffer"));
        }
        tally.properties += 1;
    }
    Ok(())
}

fn told_as_by_words(
    program: &Program,
    asked: Vec<Asked>,
    tally: &mut Tally,
) -> Result<(), Difference> {
    let by_words: Vec<Call> = asked.iter().map(|asked| asked.by_words.clone()).collect();
    let of_agent: Vec<Call> = asked.iter().map(|asked| asked.of_agent.clone()).collect();
    let found = ask(program, &by_words, tally)?;
    let answers = ask(program, &of_agent, tally)?;
    for ((asked, found), answer) in asked.into_iter().zip(found).zip(answers) {
        if let Some(what) = fault(&asked, &found, &answer) {
            return Err(broken(asked.of_agent, what));
        }
        tally.properties += 1;
    }
    Ok(())
}

/// A scan and a numbering with these faults.
fn asked_with(random: &mut Random, subject: &Subject, faults: &[u32]) -> [Asked; 2] {
    let lent = Lent::with(random, subject, faults);
    let mut asked = lent.asked(random);
    for (asked, order) in asked.iter_mut().zip(ORDERS) {
        if faults.contains(&WRONG_LENGTH) {
            spoil_lengths(random, &mut lent_buffers(&mut asked.of_agent));
        }
        let first = order.into_iter().find(|fault| faults.contains(fault));
        asked.due = match first {
            Some(WRONG_ROW) => [WRONG_ROW, lent.wrong_row as u32],
            first => [first.unwrap_or(0), 0],
        };
    }
    asked
}

/// A scan and a numbering with some bytes more in each buffer. All ways to have fewer
/// than a word more take turns, one of which is to have none.
fn asked_at_lengths(random: &mut Random, subject: &Subject, turn: usize) -> [Asked; 2] {
    let mut asked = Lent::with(random, subject, &[]).asked(random);
    for asked in &mut asked {
        let mut left = turn;
        for bytes in lent_buffers(&mut asked.of_agent) {
            let more = left % WORD_BYTES;
            bytes.extend(random.bytes(more));
            left /= WORD_BYTES;
            if more > 0 {
                asked.due = [WRONG_LENGTH, 0];
            }
        }
    }
    asked
}

impl Lent {
    /// All but the lengths of an agent, which are spoilt in bytes.
    fn with(random: &mut Random, subject: &Subject, faults: &[u32]) -> Lent {
        let mut rows = subject.rows.clone();
        if rows.is_empty() && !faults.is_empty() {
            rows.push(RawRow::default());
        }
        let mut packet = subject.world.packet_near(random, &rows).words(NEWEST);
        if faults.contains(&WRONG_PACKET) {
            make_wrong(random, &mut packet);
        }
        let mut room = || {
            let words = rows.len() + random.below(MANY);
            random.words(words)
        };
        let (mut priorities, mut chain) = (room(), room());
        if faults.contains(&SHORT_BUFFER) {
            let short = [&mut priorities, &mut chain];
            let one = random.below(short.len());
            let both = random.percent(30);
            for (place, buffer) in short.into_iter().enumerate() {
                if place == one || both {
                    buffer.truncate(random.below(rows.len()));
                }
            }
        }
        let mut wrong_row = 0;
        if faults.contains(&WRONG_ROW) {
            wrong_row = some_place(random, rows.len());
            rows[wrong_row] = contradicted(random, &rows[wrong_row]);
        }
        let mut table = table_words(&rows);
        if faults.contains(&NOT_A_TABLE) {
            table.extend(vec![0; random.within(1, ROW_WORDS - 1)]);
        }
        Lent {
            table,
            packet,
            priorities,
            chain,
            wrong_row,
        }
    }

    /// The scan and the numbering, for an agent with any bytes in the answers.
    fn asked(&self, random: &mut Random) -> [Asked; 2] {
        let table = || to_bytes(&self.table);
        let scan = Asked {
            by_words: Call::Scan {
                table: self.table.clone(),
                packet: self.packet.clone(),
            },
            of_agent: Call::AgentScan {
                table: table(),
                packet: to_bytes(&self.packet),
                answer: random.bytes(ANSWER_BYTES),
            },
            due: [0; PLACED_WORDS],
        };
        let number = Asked {
            by_words: Call::Number {
                table: self.table.clone(),
                priorities: self.priorities.clone(),
                chain: self.chain.clone(),
            },
            of_agent: Call::AgentNumber {
                table: table(),
                priorities: to_bytes(&self.priorities),
                chain: to_bytes(&self.chain),
                answer: random.bytes(ANSWER_BYTES),
            },
            due: [0; PLACED_WORDS],
        };
        [scan, number]
    }
}

/// No words, a word too few or too many, or a value too large.
fn make_wrong(random: &mut Random, packet: &mut Vec<u32>) {
    match random.below(5) {
        0 => packet.clear(),
        1 => drop(packet.pop()),
        2 => packet.push(0),
        _ => *packet.last_mut().expect("a packet has words") = MOST_PORT + 1,
    }
}

/// All that an agent's call is lent, the answer last.
fn lent_buffers(call: &mut Call) -> Vec<&mut Vec<u8>> {
    match call {
        Call::AgentScan {
            table,
            packet,
            answer,
        } => vec![table, packet, answer],
        Call::AgentNumber {
            table,
            priorities,
            chain,
            answer,
        } => vec![table, priorities, chain, answer],
        _ => Vec::new(),
    }
}

/// What an agent's call may write, in the order of its answer, before the call.
fn lent_for_writing(call: &Call) -> Vec<&Vec<u8>> {
    match call {
        Call::AgentScan { answer, .. } => vec![answer],
        Call::AgentNumber {
            priorities,
            chain,
            answer,
            ..
        } => vec![answer, priorities, chain],
        _ => Vec::new(),
    }
}

/// What is amiss with an agent's answer, beside that over the same words.
fn fault(asked: &Asked, found: &[u32], answer: &[u32]) -> Option<&'static str> {
    let [number, place] = asked.due;
    if answer[0] != number {
        return Some("not the first fault of an agent's call is refused");
    }
    let before = lent_for_writing(&asked.of_agent);
    let after = buffers_of_answer(answer);
    let told = to_words(&after[0]);
    if told[0] != place || asked.due != found[..PLACED_WORDS] {
        return Some("an agent is told another place than is due");
    }
    if number != 0 && told[1..] != [0; VALUES] {
        return Some("an agent is told a value with a refusal");
    }
    // A scan finds all three values; a numbering has one, and the rows' words behind it.
    let (values, written) = match &asked.by_words {
        Call::Number { table, .. } => (1, [table.len() / ROW_WORDS, told[1] as usize]),
        _ => (VALUES, [0; 2]),
    };
    let (found, buffers) = found[PLACED_WORDS..].split_at(values);
    if told[1..] != [found, &[0; VALUES][values..]].concat() {
        return Some("an agent is told another value than is found in the words");
    }
    if after[1..].concat() != to_bytes(buffers) {
        return Some("an agent's buffers are not those of the words");
    }
    let written = if number == 0 { written } else { [0; 2] };
    for ((before, after), written) in before.iter().zip(&after).skip(1).zip(written) {
        let behind = WORD_BYTES * written;
        if before.len() != after.len() || before[behind..] != after[behind..] {
            return Some("bytes of an agent change that are not written");
        }
    }
    None
}
