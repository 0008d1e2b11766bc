//! The agent's calls: the scan and the numbering over bytes.

use super::numbers::WRONG_LENGTH;
use super::priorities::number_lent;
use super::rows::scan_lent;
use super::Refusal;
use crate::calls::{to_bytes, to_words, WORD_BYTES};

/// Values of an answer, behind its place.
pub const VALUES: usize = 3;
pub const ANSWER_WORDS: usize = 1 + VALUES;
pub const ANSWER_BYTES: usize = WORD_BYTES * ANSWER_WORDS;

/// Finds a packet's action. The answer is filled; what is returned is 0 or a refusal.
pub fn scan(table: &[u8], packet: &[u8], answer: &mut [u8]) -> u32 {
    if wrong_length(&[table, packet], answer) {
        return WRONG_LENGTH;
    }
    let found = scan_lent(&to_words(table), &to_words(packet));
    let values = found.map(|(action, tried)| {
        let [kind, rate] = action.words();
        [kind, rate, tried as u32]
    });
    tell(values, answer)
}

/// Numbers a table. The answer is filled; what is returned is 0 or a refusal.
pub fn number(table: &[u8], priorities: &mut [u8], chain: &mut [u8], answer: &mut [u8]) -> u32 {
    if wrong_length(&[table, priorities, chain], answer) {
        return WRONG_LENGTH;
    }
    let (mut priority_words, mut chain_words) = (to_words(priorities), to_words(chain));
    let numbering = number_lent(&to_words(table), priority_words.len(), chain_words.len());
    let values = numbering.map(|numbering| {
        numbering.put(&mut priority_words, &mut chain_words);
        [numbering.levels, 0, 0]
    });
    priorities.copy_from_slice(&to_bytes(&priority_words));
    chain.copy_from_slice(&to_bytes(&chain_words));
    tell(values, answer)
}

/// Whether bytes are no whole words, or the answer's are not its four.
fn wrong_length(others: &[&[u8]], answer: &[u8]) -> bool {
    let whole = |bytes: &&[u8]| bytes.len().is_multiple_of(WORD_BYTES);
    !others.iter().all(whole) || answer.len() != ANSWER_BYTES
}

/// Fills the answer with the place and the values, or zeros for these.
fn tell(values: Result<[u32; VALUES], Refusal>, answer: &mut [u8]) -> u32 {
    let (number, place, [one, two, three]) = match values {
        Ok(values) => (0, 0, values),
        Err(refusal) => (refusal.number, refusal.place, [0; VALUES]),
    };
    answer.copy_from_slice(&to_bytes(&[place, one, two, three]));
    number
}
