//! How often each function, refusal and kind of success was met.

use std::borrow::Cow;
use std::collections::HashSet;

use crate::calls::{
    text_of_answer, to_words, Call, ATOMS_AT, FUNCTIONS, LAW_AT, NAMES, PLACED_WORDS,
    REFUSAL_WORDS, TOLD_AT, TRIED_AT, WORD_BYTES,
};
use crate::model::action::{ACTION_WORDS, DONT_CARE};
use crate::model::agent::ANSWER_BYTES;
use crate::model::capture::FOUND_WORDS;
use crate::model::edition::{NEWEST, PACKET_WORDS, ROW_WORDS};
use crate::model::numbers::{
    BROKEN_LAW, NOT_A_TABLE, REFUSALS, SHORT_BUFFER, WRONG_LENGTH, WRONG_PACKET, WRONG_ROW,
};
use crate::model::record::RawRow;
use crate::ports::{contradictory_atoms, contradicts};
use crate::shuffles::{MET, MOST_MEMBERS};
use crate::sums::{sums_shown, SUMS};

/// Every refusal must be met this often; those below by each function that can give
/// them. So must matches that contradict themselves: in atoms, in rows by each function
/// that reads a table, and in rows at each kind of place; each kind of sums; captures
/// whose packets have different answers, and whose first wrong packet is at each kind of
/// place; successes of an agent's calls with rows, and each kind of a wrong length alone;
/// and each kind of shuffles and of what they show.
const LEAST: usize = 100;
const READ_TABLES: [&str; 6] = [
    "scan",
    "number",
    "hidden",
    "capture",
    "agent's scan",
    "agent's number",
];
const READ_PACKETS: [&str; 4] = ["action", "scan", "capture", "agent's scan"];
const NUMBER_ROWS: [&str; 2] = ["number", "agent's number"];
const OF_AGENTS: [&str; 2] = ["agent's scan", "agent's number"];
const REFUSED_BY: [(u32, &[&str]); 5] = [
    (NOT_A_TABLE, &READ_TABLES),
    (WRONG_ROW, &READ_TABLES),
    (WRONG_PACKET, &READ_PACKETS),
    (SHORT_BUFFER, &NUMBER_ROWS),
    (WRONG_LENGTH, &OF_AGENTS),
];
/// The last number.
const NUMBERS: usize = REFUSALS[REFUSALS.len() - 1] as usize;
/// The least width of a function's column.
const COLUMN: usize = 8;
/// No law, commutativity and associativity.
const LAWS: usize = 3;
/// Kinds of places in a table or a capture.
const PLACES: [&str; 3] = ["first", "last", "between"];
/// Buffers of an agent whose length can be wrong, those of an answer in two ways.
const LENGTHS: [&str; 6] = [
    "table",
    "packet",
    "priorities",
    "chain",
    "answer of no whole words",
    "answer of whole words",
];

#[derive(Default)]
pub struct Tally {
    /// By call code less 1, then by refusal number; 0 is a success.
    numbers: [[usize; NUMBERS + 1]; FUNCTIONS],
    /// Successes with a size over 0, and the largest size, by call.
    sized: [usize; FUNCTIONS],
    largest: [usize; FUNCTIONS],
    /// Different places of each refusal.
    places: [HashSet<u32>; NUMBERS + 1],
    /// Refusals 10 by law.
    laws: [usize; LAWS],
    most_priorities: u32,
    /// Rows that stayed without the hidden ones, and hidden ones that went.
    stayed: usize,
    went: usize,
    /// Matches that contradict themselves: atoms of right files, and rows that were
    /// refused, by call and by the kind of their place.
    contradictory_atoms: usize,
    contradictory_rows: [[usize; PLACES.len()]; FUNCTIONS],
    /// Tree's actions that rest on a sum of this kind.
    pub sums: [usize; SUMS.len()],
    /// Captures with different answers, and refused ones by the kind of the wrong
    /// packet's place.
    different_answers: usize,
    wrong_packets: [usize; PLACES.len()],
    /// Agent's calls with one wrong length, by the buffer that has it.
    wrong_lengths: [usize; LENGTHS.len()],
    /// Shuffles and what they are compared with, by group and member.
    pub shuffles: [[usize; MOST_MEMBERS]; MET.len()],
    pub properties: usize,
}

impl Tally {
    pub fn add(&mut self, call: &Call, answer: &[u32]) {
        let (number, place) = number_and_place(call, answer);
        let function = call.code() as usize - 1;
        let number = (number as usize).min(NUMBERS);
        self.numbers[function][number] += 1;
        self.places[number].insert(place);
        let of_file = matches!(
            call,
            Call::Read { .. } | Call::Action { .. } | Call::Compile { .. }
        );
        if number == BROKEN_LAW as usize && of_file {
            self.laws[answer[LAW_AT] as usize % LAWS] += 1;
        }
        if number == WRONG_ROW as usize {
            if let Some(kind) = contradictory_place(&lent_table(call), place as usize) {
                self.contradictory_rows[function][kind] += 1;
            }
        }
        if number == WRONG_LENGTH as usize {
            if let [kind] = wrong_lengths(call)[..] {
                self.wrong_lengths[kind] += 1;
            }
        }
        if let (WRONG_PACKET, Call::Capture { packets, .. }) = (number as u32, call) {
            let kind = kind_of_place(place as usize, packets.len() / PACKET_WORDS);
            self.wrong_packets[kind] += 1;
        }
        if number == 0 {
            self.contradictory_atoms += atoms_that_contradict(call);
            let size = size(call, answer);
            self.sized[function] += usize::from(size > 0);
            self.largest[function] = self.largest[function].max(size);
            match call {
                Call::Action { file, packet } => {
                    for (sums, shown) in self.sums.iter_mut().zip(sums_shown(file, packet)) {
                        *sums += usize::from(shown);
                    }
                }
                Call::Number { .. } => {
                    self.most_priorities = self.most_priorities.max(answer[PLACED_WORDS]);
                }
                Call::AgentNumber { .. } => {
                    self.most_priorities = self.most_priorities.max(answer[TOLD_AT + 1]);
                }
                Call::Hidden { table } => {
                    self.stayed += size;
                    self.went += table.len() / ROW_WORDS - size;
                }
                Call::Capture { .. } => {
                    let mut found = answer[PLACED_WORDS..].chunks(FOUND_WORDS).take(size);
                    let first = found.next();
                    let different = found.any(|found| Some(found) != first);
                    self.different_answers += usize::from(different);
                }
                _ => {}
            }
        }
    }

    pub fn merge(&mut self, other: Tally) {
        for function in 0..FUNCTIONS {
            for number in 0..=NUMBERS {
                self.numbers[function][number] += other.numbers[function][number];
            }
            for kind in 0..PLACES.len() {
                self.contradictory_rows[function][kind] += other.contradictory_rows[function][kind];
            }
            self.sized[function] += other.sized[function];
            self.largest[function] = self.largest[function].max(other.largest[function]);
        }
        for (places, more) in self.places.iter_mut().zip(other.places) {
            places.extend(more);
        }
        for (law, more) in self.laws.iter_mut().zip(other.laws) {
            *law += more;
        }
        for (sums, more) in self.sums.iter_mut().zip(other.sums) {
            *sums += more;
        }
        for (wrong, more) in self.wrong_packets.iter_mut().zip(other.wrong_packets) {
            *wrong += more;
        }
        for (wrong, more) in self.wrong_lengths.iter_mut().zip(other.wrong_lengths) {
            *wrong += more;
        }
        let shuffles = other.shuffles.iter().flatten();
        for (met, more) in self.shuffles.iter_mut().flatten().zip(shuffles) {
            *met += more;
        }
        self.different_answers += other.different_answers;
        self.most_priorities = self.most_priorities.max(other.most_priorities);
        self.stayed += other.stayed;
        self.went += other.went;
        self.contradictory_atoms += other.contradictory_atoms;
        self.properties += other.properties;
    }

    pub fn cases(&self) -> usize {
        self.numbers.iter().flatten().sum()
    }

    fn met(&self, number: u32) -> usize {
        let number = number as usize;
        self.numbers.iter().map(|function| function[number]).sum()
    }

    /// What was met too seldom to say that it was tested: refusals by their numbers,
    /// matches that contradict themselves, sums, captures, and calls of an agent.
    pub fn too_seldom(&self) -> Vec<String> {
        let seldom = REFUSALS
            .into_iter()
            .filter(|&number| self.met(number) < LEAST);
        let mut seldom: Vec<String> = seldom.map(|number| number.to_string()).collect();
        for (name, numbers) in NAMES.iter().zip(&self.numbers) {
            for (number, names) in REFUSED_BY {
                if names.contains(name) && numbers[number as usize] < LEAST {
                    seldom.push(format!("{number} of {name}"));
                }
            }
        }
        for (name, sized) in NAMES.iter().zip(self.sized) {
            if OF_AGENTS.contains(name) && sized < LEAST {
                seldom.push(format!("successes of {name}"));
            }
        }
        for (buffer, wrong) in LENGTHS.iter().zip(self.wrong_lengths) {
            if wrong < LEAST {
                seldom.push(format!("wrong lengths alone, {buffer}"));
            }
        }
        if self.contradictory_atoms < LEAST {
            seldom.push("contradictory atoms".to_string());
        }
        for (name, places) in NAMES.iter().zip(&self.contradictory_rows) {
            if READ_TABLES.contains(name) && places.iter().sum::<usize>() < LEAST {
                seldom.push(format!("contradictory rows of {name}"));
            }
        }
        for (kind, place) in PLACES.iter().enumerate() {
            let by_function = self.contradictory_rows.iter().map(|places| places[kind]);
            if by_function.sum::<usize>() < LEAST {
                seldom.push(format!("contradictory rows, {place}"));
            }
        }
        for (kind, sums) in SUMS.iter().zip(&self.sums) {
            if *sums < LEAST {
                seldom.push(format!("sums {kind}"));
            }
        }
        if self.different_answers < LEAST {
            seldom.push("captures with different answers".to_string());
        }
        for (place, wrong) in PLACES.iter().zip(&self.wrong_packets) {
            if *wrong < LEAST {
                seldom.push(format!("wrong packets of captures, {place}"));
            }
        }
        for ((group, members), met) in MET.iter().zip(&self.shuffles) {
            for (member, met) in members.iter().zip(met) {
                if *met < LEAST {
                    seldom.push(format!("{group} {member}"));
                }
            }
        }
        seldom
    }

    pub fn report(&self) -> String {
        let mut text = format!("{} calls compared word for word\n", self.cases());
        text += "function           calls  successes  size over 0    largest\n";
        for (function, name) in NAMES.iter().enumerate() {
            let numbers = &self.numbers[function];
            text += &format!(
                "{name:<14} {:>9} {:>10} {:>12} {:>10}\n",
                numbers.iter().sum::<usize>(),
                numbers[0],
                self.sized[function],
                self.largest[function]
            );
        }
        text += "(size: rows made, tried, numbered, listed or kept; atoms read; an action that cares; packets)\n";
        text += "refusal    times  different places";
        text += &NAMES.map(|name| format!(" {name:>COLUMN$}")).concat();
        text += "\n";
        for number in REFUSALS {
            let places = self.places[number as usize].len();
            text += &format!("{number:>7} {:>8} {places:>17}", self.met(number));
            for (name, numbers) in NAMES.iter().zip(&self.numbers) {
                let width = name.len().max(COLUMN);
                text += &format!(" {:>width$}", numbers[number as usize]);
            }
            text += "\n";
        }
        text += &format!(
            "refusal 10: {} for commutativity, {} for associativity\n",
            self.laws[1], self.laws[2]
        );
        text += &format!("most priorities in a numbering: {}\n", self.most_priorities);
        text += &format!("hidden rows: {} went, {} stayed\n", self.went, self.stayed);
        text += &format!("contradictory atoms: {}\n", self.contradictory_atoms);
        for (name, places) in NAMES.iter().zip(&self.contradictory_rows) {
            if READ_TABLES.contains(name) {
                text += &format!("contradictory rows of {name}:{}\n", times(&PLACES, places));
            }
        }
        let sums = times(&SUMS, &self.sums);
        text += &format!("tree's actions that rest on a sum:{sums}\n");
        let wrong = times(&PLACES, &self.wrong_packets);
        text += &format!("wrong packets of captures:{wrong}\n");
        let different = self.different_answers;
        text += &format!("captures with different answers: {different}\n");
        let wrong = times(&LENGTHS, &self.wrong_lengths);
        text += &format!("wrong lengths alone:{wrong}\n");
        for ((group, members), met) in MET.iter().zip(&self.shuffles) {
            text += &format!("{group}:{}\n", times(members, met));
        }
        text += &format!("{} properties checked\n", self.properties);
        text
    }
}

/// How often each kind was met.
fn times(kinds: &[&str], times: &[usize]) -> String {
    let times = kinds.iter().zip(times);
    let times: Vec<String> = times
        .map(|(kind, times)| format!(" {times} {kind}"))
        .collect();
    times.join(",")
}

/// Atoms that contradict themselves in the right file of a call that has one.
fn atoms_that_contradict(call: &Call) -> usize {
    match call {
        Call::Read { file } | Call::Action { file, .. } | Call::Compile { file, .. } => {
            contradictory_atoms(file)
        }
        Call::Listing { bytes } => contradictory_atoms(&to_words(bytes)),
        _ => 0,
    }
}

/// The words of the table that a call lends, none where it lends none.
fn lent_table(call: &Call) -> Cow<'_, [u32]> {
    match call {
        Call::Scan { table, .. }
        | Call::Number { table, .. }
        | Call::Hidden { table }
        | Call::Capture { table, .. } => Cow::Borrowed(table),
        Call::AgentScan { table, .. } | Call::AgentNumber { table, .. } => to_words(table).into(),
        _ => Cow::default(),
    }
}

/// The buffers of an agent's call that have a wrong length.
fn wrong_lengths(call: &Call) -> Vec<usize> {
    let (others, answer): ([&[u8]; 4], &[u8]) = match call {
        Call::AgentScan {
            table,
            packet,
            answer,
        } => ([table, packet, &[], &[]], answer),
        Call::AgentNumber {
            table,
            priorities,
            chain,
            answer,
        } => ([table, &[], priorities, chain], answer),
        _ => return Vec::new(),
    };
    let whole = |bytes: &[u8]| bytes.len().is_multiple_of(WORD_BYTES);
    let mut wrong = others.map(|bytes| !whole(bytes)).to_vec();
    wrong.push(!whole(answer));
    wrong.push(whole(answer) && answer.len() != ANSWER_BYTES);
    (0..wrong.len()).filter(|kind| wrong[*kind]).collect()
}

/// The kind of this place, if the row there contradicts itself.
fn contradictory_place(table: &[u32], place: usize) -> Option<usize> {
    let rows: Vec<&[u32]> = table.chunks(ROW_WORDS).collect();
    let row = RawRow::from_words(rows.get(place)?, NEWEST);
    contradicts(&row).then_some(kind_of_place(place, rows.len()))
}

/// The first, the last, or one between.
fn kind_of_place(place: usize, places: usize) -> usize {
    match place {
        0 => 0,
        _ if place + 1 == places => 1,
        _ => 2,
    }
}

/// A listing's refusal is read from its text. An agent's without an answer has place 0.
pub fn number_and_place(call: &Call, answer: &[u32]) -> (u32, u32) {
    match call {
        Call::Listing { .. } => {}
        Call::AgentScan { .. } | Call::AgentNumber { .. } => match answer[0] {
            WRONG_LENGTH => return (WRONG_LENGTH, 0),
            number => return (number, answer[TOLD_AT]),
        },
        _ => return (answer[0], answer[1]),
    }
    let text = text_of_answer(answer);
    let mut words = text.split_whitespace();
    if words.next() != Some("refused") {
        return (0, 0);
    }
    let mut number = || words.next().and_then(|word| word.parse().ok()).unwrap_or(0);
    (number(), number())
}

/// The size of a success: rows made, tried, numbered, listed or kept, atoms read, packets.
/// For the tree's action 1 or 0, whether it is anything but don't care.
fn size(call: &Call, answer: &[u32]) -> usize {
    match call {
        Call::Read { .. } => answer[ATOMS_AT] as usize,
        Call::Action { .. } => usize::from(answer[REFUSAL_WORDS] != DONT_CARE),
        Call::Compile { .. } => answer[REFUSAL_WORDS] as usize,
        Call::Scan { .. } => answer[TRIED_AT] as usize,
        Call::Number { table, .. } => table.len() / ROW_WORDS,
        Call::Listing { .. } => text_of_answer(answer).lines().count() - 1,
        Call::Hidden { .. } => answer[PLACED_WORDS] as usize,
        Call::Capture { packets, .. } => packets.len() / PACKET_WORDS,
        Call::AgentScan { .. } => answer[TOLD_AT + 1 + ACTION_WORDS] as usize,
        Call::AgentNumber { table, .. } => table.len() / WORD_BYTES / ROW_WORDS,
    }
}
