//! Properties, each by means of its own: nothing here asks the model what a row
//! meets, which rows overlap or hide others, or how long a chain is.

use crate::agents::agents_hold;
use crate::calls::{to_bytes, Call, PLACED_WORDS, REFUSAL_WORDS, ROWS_AT, TRIED_AT};
use crate::captures::{captures_hold, faults_in_order};
use crate::cases::Maker;
use crate::model::action::DONT_CARE;
use crate::model::agent::ANSWER_BYTES;
use crate::model::capture::FOUND_WORDS;
use crate::model::edition::{DEEPEST, MOST_OPERATORS, NEWEST, ROW_WORDS};
use crate::model::fields::Packet;
use crate::model::numbers::WRONG_ROW;
use crate::model::record::RawRow;
use crate::numberings::{action_words, meets, numbering_fault};
use crate::passes::pass_fault;
use crate::policies::{Draft, Size};
use crate::ports::contradicted;
use crate::program::{Difference, Program};
use crate::random::Random;
use crate::shuffles::shuffles_hold;
use crate::tables::table_words;
use crate::tally::{number_and_place, Tally};
use crate::world::World;

/// A table, the packets that can tell its rows apart, and its policy if it has one.
pub struct Subject {
    pub world: World,
    policy: Option<Draft>,
    pub rows: Vec<RawRow>,
}

/// Room for the compiles: small policies make at most 63 rows.
const ROOM: usize = 64;
/// Files that are shuffled.
const SHUFFLED: usize = 220;

pub fn check(
    program: &Program,
    maker: &mut Maker,
    policies: usize,
    tally: &mut Tally,
) -> Result<(), Difference> {
    let mut subjects = compiled(program, maker, policies, tally)?;
    subjects.extend(drawn(maker, policies));
    scans_agree(program, &mut maker.random, &subjects, tally)?;
    numberings_hold(program, &subjects, tally)?;
    passes_hold(program, &subjects, tally)?;
    captures_hold(program, &mut maker.random, &subjects, tally)?;
    faults_in_order(program, &mut maker.random, &subjects, tally)?;
    agents_hold(program, &mut maker.random, &subjects, tally)?;
    contradictions_refused(program, &mut maker.random, &subjects[policies..], tally)?;
    // Half of these files add rates on purpose, so none of them counts for sums.
    let sums = tally.sums;
    shuffles_hold(program, maker, SHUFFLED, tally)?;
    tally.sums = sums;
    Ok(())
}

/// The answers of the program under test, which are the model's too.
pub fn ask(
    program: &Program,
    calls: &[Call],
    tally: &mut Tally,
) -> Result<Vec<Vec<u32>>, Difference> {
    let answers = program.check(calls)?;
    for (call, answer) in calls.iter().zip(&answers) {
        tally.add(call, answer);
    }
    Ok(answers)
}

/// A small right policy, its size changed before it is drawn.
pub fn right_draft(
    maker: &mut Maker,
    world: &World,
    resize: impl FnOnce(&mut Random, &mut Size),
) -> Draft {
    let mut size = Size::small(&mut maker.random);
    size.deepest = size.deepest.min(DEEPEST);
    size.operators = size.operators.min(MOST_OPERATORS);
    resize(&mut maker.random, &mut size);
    maker.draft(world, size)
}

/// Tables that the program under test compiled from right policies.
fn compiled(
    program: &Program,
    maker: &mut Maker,
    policies: usize,
    tally: &mut Tally,
) -> Result<Vec<Subject>, Difference> {
    let mut worlds = Vec::new();
    let mut drafts = Vec::new();
    for _ in 0..policies {
        let world = World::tiny(&mut maker.random);
        drafts.push(right_draft(maker, &world, |_, _| {}));
        worlds.push(world);
    }
    let calls: Vec<Call> = drafts
        .iter()
        .map(|draft| Call::Compile {
            file: draft.words(),
            table: maker.random.words(ROW_WORDS * ROOM),
            scratch: maker.random.words(ROW_WORDS * ROOM),
        })
        .collect();
    let answers = ask(program, &calls, tally)?;
    let mut subjects = Vec::new();
    let policies = worlds.into_iter().zip(drafts);
    for (((world, draft), answer), call) in policies.zip(answers).zip(calls) {
        if answer[0] != 0 {
            return Err(broken(call, "a right policy was refused"));
        }
        subjects.push(Subject {
            world,
            rows: compiled_rows(&answer),
            policy: Some(draft),
        });
    }
    Ok(subjects)
}

/// The rows in the answer of a compile.
fn compiled_rows(answer: &[u32]) -> Vec<RawRow> {
    let count = answer[REFUSAL_WORDS] as usize;
    first_rows(&answer[REFUSAL_WORDS + 1..], count)
}

fn first_rows(table: &[u32], count: usize) -> Vec<RawRow> {
    let rows = table.chunks(ROW_WORDS).take(count);
    rows.map(|row| RawRow::from_words(row, NEWEST)).collect()
}

/// Tables of drawn rows, every second time such that many lie inside earlier ones.
fn drawn(maker: &mut Maker, tables: usize) -> Vec<Subject> {
    let mut subjects = Vec::new();
    for table in 0..tables {
        let world = World::tiny(&mut maker.random);
        let count = maker.random.within(0, 30);
        let rows = match table % 2 {
            0 => world.rows(&mut maker.random, count),
            _ => maker.nested_rows(&world, count),
        };
        subjects.push(Subject {
            world,
            policy: None,
            rows,
        });
    }
    subjects
}

/// The scan gives the first row that meets the packet, and for a compiled table
/// the tree's action.
fn scans_agree(
    program: &Program,
    random: &mut Random,
    subjects: &[Subject],
    tally: &mut Tally,
) -> Result<(), Difference> {
    let mut calls = Vec::new();
    let mut asked = Vec::new();
    for subject in subjects {
        for _ in 0..4 {
            let packet = subject.world.packet(random);
            asked.push((subject, packet));
            calls.push(Call::Scan {
                table: table_words(&subject.rows),
                packet: packet.words(NEWEST),
            });
            calls.push(match &subject.policy {
                Some(draft) => Call::Action {
                    file: draft.words(),
                    packet: packet.words(NEWEST),
                },
                None => calls[calls.len() - 1].clone(),
            });
        }
    }
    let answers = ask(program, &calls, tally)?;
    for ((pair, calls), (subject, packet)) in answers.chunks(2).zip(calls.chunks(2)).zip(asked) {
        scan_agrees(subject, &packet, calls, pair)?;
        tally.properties += 1;
    }
    Ok(())
}

/// The answers of a scan and of the tree's action for one packet.
fn scan_agrees(
    subject: &Subject,
    packet: &Packet,
    calls: &[Call],
    answers: &[Vec<u32>],
) -> Result<(), Difference> {
    let first = subject.rows.iter().position(|row| meets(row, packet));
    let (action, tried) = match first {
        Some(place) => (action_words(&subject.rows[place]), place + 1),
        None => ([DONT_CARE, 0], subject.rows.len()),
    };
    let (scan, tree) = (&answers[0], &answers[1]);
    if scan[PLACED_WORDS..TRIED_AT] != action || scan[TRIED_AT] as usize != tried {
        return Err(broken(calls[0].clone(), "the scan is not the first match"));
    }
    let Some(draft) = &subject.policy else {
        return Ok(());
    };
    if tree[REFUSAL_WORDS..] != action {
        let what = "the tree's action is not the compiled table's";
        return Err(broken(calls[1].clone(), what));
    }
    let mut met = draft.atoms.iter().filter(|atom| meets(atom, packet));
    let single = match (met.next(), met.next()) {
        (None, _) => [DONT_CARE, 0],
        (Some(atom), None) => action_words(atom),
        _ => return Ok(()),
    };
    if action != single {
        let what = "the tree's action is not that of the one atom that is met";
        return Err(broken(calls[1].clone(), what));
    }
    Ok(())
}

/// Priorities and chains of all the tables.
fn numberings_hold(
    program: &Program,
    subjects: &[Subject],
    tally: &mut Tally,
) -> Result<(), Difference> {
    let calls: Vec<Call> = subjects
        .iter()
        .map(|subject| Call::Number {
            table: table_words(&subject.rows),
            priorities: vec![0; subject.rows.len()],
            chain: vec![0; subject.rows.len()],
        })
        .collect();
    let answers = ask(program, &calls, tally)?;
    for ((subject, answer), call) in subjects.iter().zip(answers).zip(calls) {
        let levels = answer[PLACED_WORDS] as usize;
        let (priorities, chain) = answer[PLACED_WORDS + 1..].split_at(subject.rows.len());
        let fault = numbering_fault(
            subject,
            levels,
            priorities,
            &chain[..levels.min(chain.len())],
        );
        if let Some(what) = fault {
            return Err(broken(call, what));
        }
        tally.properties += 1;
    }
    Ok(())
}

/// Hidden rows out of all the tables, and once more out of the rows that stay.
fn passes_hold(
    program: &Program,
    subjects: &[Subject],
    tally: &mut Tally,
) -> Result<(), Difference> {
    let table = |subject: &Subject| table_words(&subject.rows);
    let out_of = |table| Call::Hidden { table };
    let calls: Vec<Call> = subjects.iter().map(table).map(out_of).collect();
    let answers = ask(program, &calls, tally)?;
    let mut left = Vec::new();
    for ((subject, answer), call) in subjects.iter().zip(answers).zip(calls) {
        let count = answer[PLACED_WORDS] as usize;
        let (stay, freed) = answer[ROWS_AT..].split_at(ROW_WORDS * count);
        if freed.iter().any(|word| *word != 0) {
            return Err(broken(call, "a freed word is not 0"));
        }
        if let Some(what) = pass_fault(&subject.rows, &first_rows(stay, count)) {
            return Err(broken(call, what));
        }
        left.push(stay.to_vec());
        tally.properties += 1;
    }
    let calls: Vec<Call> = left.iter().cloned().map(out_of).collect();
    let answers = ask(program, &calls, tally)?;
    for ((table, answer), call) in left.iter().zip(answers).zip(calls) {
        let count = answer[PLACED_WORDS] as usize;
        if ROW_WORDS * count != table.len() || answer[ROWS_AT..] != table[..] {
            return Err(broken(call, "a second pass takes rows out"));
        }
        tally.properties += 1;
    }
    Ok(())
}

/// Tables of which one row, the first, the last or any, contradicts itself. The six
/// functions that read a table take turns.
fn contradictions_refused(
    program: &Program,
    random: &mut Random,
    subjects: &[Subject],
    tally: &mut Tally,
) -> Result<(), Difference> {
    let mut calls = Vec::new();
    let mut places = Vec::new();
    for subject in subjects {
        let mut rows = subject.rows.clone();
        if rows.is_empty() {
            rows.push(RawRow::default());
        }
        let last = rows.len() - 1;
        let place = [0, last, random.within(0, last)][random.below(3)];
        rows[place] = contradicted(random, &rows[place]);
        let table = table_words(&rows);
        let packet = subject.world.packet(random).words(NEWEST);
        calls.push(match calls.len() % 6 {
            0 => Call::Scan { table, packet },
            1 => Call::Number {
                table,
                priorities: vec![0; rows.len()],
                chain: vec![0; rows.len()],
            },
            2 => Call::Hidden { table },
            3 => Call::Capture {
                table,
                packets: packet,
                answers: vec![0; FOUND_WORDS],
            },
            4 => Call::AgentScan {
                table: to_bytes(&table),
                packet: to_bytes(&packet),
                answer: vec![0; ANSWER_BYTES],
            },
            _ => Call::AgentNumber {
                table: to_bytes(&table),
                priorities: to_bytes(&vec![0; rows.len()]),
                chain: to_bytes(&vec![0; rows.len()]),
                answer: vec![0; ANSWER_BYTES],
            },
        });
        places.push(place as u32);
    }
    let answers = ask(program, &calls, tally)?;
    for ((place, answer), call) in places.into_iter().zip(answers).zip(calls) {
        if number_and_place(&call, &answer) != (WRONG_ROW, place) {
            return Err(broken(call, "a row that contradicts itself is not refused"));
        }
        tally.properties += 1;
    }
    Ok(())
}

pub fn broken(call: Call, what: &str) -> Difference {
    let report = format!("property broken: {what}");
    Difference {
        calls: vec![call],
        report,
    }
}
