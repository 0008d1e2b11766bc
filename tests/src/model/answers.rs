//! The public functions, from lent words to every word of the answer.

use super::action::Action;
use super::agent;
use super::capture::{capture, FOUND_WORDS};
use super::edition::{NEWEST, ROW_WORDS};
use super::fields::Packet;
use super::file::Policy;
use super::hidden::without_hidden;
use super::listing::listing;
use super::numbers::{MORE_ROWS, SHORT_SCRATCH, WRONG_PACKET};
use super::operator::Law;
use super::priorities::number_lent;
use super::rows::{compile, read_table, scan_lent, Row, MOST_ROWS};
use super::{refusal, Refusal};
use crate::calls::{put_bytes, words_of_bytes, Call};

pub fn answer(call: &Call) -> Vec<u32> {
    match call {
        Call::Read { file } => read(file),
        Call::Action { file, packet } => tree_action(file, packet),
        Call::Compile {
            file,
            table,
            scratch,
        } => compiled(file, table, scratch),
        Call::Scan { table, packet } => scanned(table, packet),
        Call::Number {
            table,
            priorities,
            chain,
        } => numbered(table, priorities, chain),
        Call::Listing { bytes } => words_of_bytes(listing(bytes).as_bytes()),
        Call::Hidden { table } => hidden_out(table),
        Call::Capture {
            table,
            packets,
            answers,
        } => captured(table, packets, answers),
        Call::AgentScan {
            table,
            packet,
            answer,
        } => agent_scanned(table, packet, answer),
        Call::AgentNumber {
            table,
            priorities,
            chain,
            answer,
        } => agent_numbered(table, priorities, chain, answer),
    }
}

fn read(file: &[u32]) -> Vec<u32> {
    let policy = Policy::read(file, NEWEST);
    let counts = match &policy {
        Ok(policy) => [
            policy.operators.len(),
            policy.atoms.len(),
            policy.nodes.len(),
        ],
        Err(_) => [0; 3],
    };
    let mut words = refusal_words(policy.err());
    words.extend(counts.map(|count| count as u32));
    words
}

fn tree_action(file: &[u32], packet: &[u32]) -> Vec<u32> {
    let result = Policy::read(file, NEWEST).and_then(|policy| {
        let packet = Packet::read(packet, NEWEST).map_err(|_| refusal(WRONG_PACKET, 0))?;
        Ok(policy.tree().action(&packet))
    });
    let action = result.unwrap_or(Action::DontCare);
    let mut words = refusal_words(result.err());
    words.extend(action.words());
    words
}

fn compiled(file: &[u32], table: &[u32], scratch: &[u32]) -> Vec<u32> {
    let result = compile_lent(file, table.len(), scratch.len());
    let zeroed = match &result {
        Ok(_) => true,
        Err(refusal) => refusal.number == MORE_ROWS,
    };
    let (mut table, mut scratch) = (table.to_vec(), scratch.to_vec());
    if zeroed {
        table.fill(0);
        scratch.fill(0);
    }
    let rows = result.as_ref().map_or(&[][..], |rows| &rows[..]);
    put_rows(rows, &mut table);
    let count = rows.len() as u32;
    let mut words = refusal_words(result.err());
    words.push(count);
    words.extend(table);
    words.extend(scratch);
    words
}

/// Writes the rows at the front of the table.
fn put_rows(rows: &[Row], table: &mut [u32]) {
    for (words, row) in table.chunks_mut(ROW_WORDS).zip(rows) {
        words.copy_from_slice(&row.raw().words(NEWEST));
    }
}

fn compile_lent(file: &[u32], table: usize, scratch: usize) -> Result<Vec<Row>, Refusal> {
    let tree = Policy::read(file, NEWEST)?.tree();
    let room = (table / ROW_WORDS).min(MOST_ROWS);
    if scratch < ROW_WORDS * room {
        return Err(refusal(SHORT_SCRATCH, 0));
    }
    compile(&tree, room).map_err(|_| refusal(MORE_ROWS, 0))
}

fn scanned(table: &[u32], packet: &[u32]) -> Vec<u32> {
    let result = scan_lent(table, packet);
    let (action, tried) = result.unwrap_or((Action::DontCare, 0));
    let (number, place) = number_and_place(result.err());
    let [kind, rate] = action.words();
    vec![number, place, kind, rate, tried as u32]
}

fn numbered(table: &[u32], priorities: &[u32], chain: &[u32]) -> Vec<u32> {
    let result = number_lent(table, priorities.len(), chain.len());
    let (mut priorities, mut chain) = (priorities.to_vec(), chain.to_vec());
    let mut levels = 0;
    if let Ok(numbering) = &result {
        levels = numbering.levels;
        numbering.put(&mut priorities, &mut chain);
    }
    let (number, place) = number_and_place(result.err());
    let mut words = vec![number, place, levels];
    words.extend(priorities);
    words.extend(chain);
    words
}

fn hidden_out(table: &[u32]) -> Vec<u32> {
    let result = read_table(table).map(|rows| without_hidden(&rows));
    let mut table = table.to_vec();
    let mut count = 0;
    if let Ok(rows) = &result {
        count = rows.len() as u32;
        table.fill(0);
        put_rows(rows, &mut table);
    }
    let (number, place) = number_and_place(result.err());
    let mut words = vec![number, place, count];
    words.extend(table);
    words
}

fn captured(table: &[u32], packets: &[u32], answers: &[u32]) -> Vec<u32> {
    let result = capture(table, packets, answers.len());
    let mut answers = answers.to_vec();
    let found = result.as_ref().map_or(&[][..], |found| &found[..]);
    for (words, (action, tried)) in answers.chunks_mut(FOUND_WORDS).zip(found) {
        let [kind, rate] = action.words();
        words.copy_from_slice(&[kind, rate, *tried as u32]);
    }
    let (number, place) = number_and_place(result.err());
    let mut words = vec![number, place];
    words.extend(answers);
    words
}

fn agent_scanned(table: &[u8], packet: &[u8], answer: &[u8]) -> Vec<u32> {
    let mut answer = answer.to_vec();
    let number = agent::scan(table, packet, &mut answer);
    returned(number, &[&answer])
}

fn agent_numbered(table: &[u8], priorities: &[u8], chain: &[u8], answer: &[u8]) -> Vec<u32> {
    let [mut priorities, mut chain, mut answer] = [priorities, chain, answer].map(<[u8]>::to_vec);
    let number = agent::number(table, &mut priorities, &mut chain, &mut answer);
    returned(number, &[&answer, &priorities, &chain])
}

/// The number that a call returns, then the buffers that it may have written.
fn returned(number: u32, buffers: &[&[u8]]) -> Vec<u32> {
    let mut words = vec![number];
    put_bytes(buffers, &mut words);
    words
}

fn number_and_place(refusal: Option<Refusal>) -> (u32, u32) {
    refusal.map_or((0, 0), |refusal| (refusal.number, refusal.place))
}

/// Number, place, law and three actions.
fn refusal_words(refusal: Option<Refusal>) -> Vec<u32> {
    let (number, place) = number_and_place(refusal);
    let failure = refusal.and_then(|refusal| refusal.failure);
    let law = match failure.map(|failure| failure.law) {
        None => 0,
        Some(Law::Commutativity) => 1,
        Some(Law::Associativity) => 2,
    };
    let actions = failure.map_or([Action::DontCare; 3], |failure| failure.actions);
    let mut words = vec![number, place, law];
    words.extend(actions.iter().flat_map(|action| action.words()));
    words
}
