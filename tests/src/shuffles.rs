//! What stays where the atoms of a node, or its children with all that is below them, are
//! put in another order: an accepted file is accepted, each packet's action is the same,
//! and so is the number of rows, which is that of the sets of atoms that some packet meets
//! all of. The order of the rows and the number of priorities may be others. Changes that
//! are no such step show that a difference would be seen.

use crate::branches::{shuffled, unlike, DAMAGES, SHUFFLES};
use crate::calls::{Call, PLACED_WORDS, READ_COUNTS, REFUSAL_WORDS, TRIED_AT};
use crate::cases::Maker;
use crate::model::action::ACTION_WORDS;
use crate::model::edition::{NEWEST, ROW_WORDS};
use crate::model::numbers::{MORE_ROWS, SHORT_SCRATCH};
use crate::model::record::{RawRow, EMPTY};
use crate::model::rows::MOST_ROWS;
use crate::policies::{Draft, Size};
use crate::ports::contradicts;
use crate::program::{Difference, Program};
use crate::properties::ask;
use crate::random::Random;
use crate::sets::{shared_sets, MOST_ATOMS_COUNTED};
use crate::tally::Tally;
use crate::telling::{is_telling, small_draft, MORE_ATOMS};
use crate::world::World;

/// Packets that are asked about for each file. The first is wrong one time in four.
const PACKETS: usize = 4;
/// Each pair is compiled with so many tables and scratches.
const LENT: usize = 2;

/// What must be met, by groups: the group's name and its members'.
pub const MET: [(&str, &[&str]); 5] = [
    ("shuffles", &SHUFFLES),
    ("files with sets counted", &COUNTED),
    ("shuffles that make", &OTHERS),
    ("other actions by", &DAMAGES),
    ("other row counts by", &DAMAGES_OF_ATOMS),
];
pub const MOST_MEMBERS: usize = COUNTED.len();
const COUNTED: [&str; 5] = [
    "without atoms",
    "with an atom twice",
    "with flag 16",
    "with a contradictory atom",
    "of seven atoms and more",
];
const OTHERS: [&str; 2] = ["another order of rows", "another number of priorities"];
const LAST: usize = DAMAGES.len() - 1;
const DAMAGES_OF_ATOMS: [&str; 1] = [DAMAGES[LAST]];

/// A file as it was and shuffled, and what is asked about both.
struct Pair {
    kind: usize,
    drafts: [Draft; 2],
    packets: Vec<Vec<u32>>,
    /// None if they are more than the most.
    rows: Option<usize>,
}

impl Pair {
    fn new(maker: &mut Maker, world: &World, draft: Draft, kind: usize) -> Pair {
        let mut packets = vec![maker.packet(world, 75)];
        let random = &mut maker.random;
        while packets.len() < PACKETS {
            let packet = world.packet_near(random, &draft.atoms);
            packets.push(packet.words(NEWEST));
        }
        let after = shuffled(random, &draft, kind);
        let counted = draft.atoms.len() <= MOST_ATOMS_COUNTED;
        Pair {
            kind,
            rows: counted.then(|| shared_sets(&draft.atoms)),
            drafts: [draft, after],
            packets,
        }
    }

    fn atoms(&self) -> &[RawRow] {
        &self.drafts[0].atoms
    }

    fn is_counted(&self) -> bool {
        self.atoms().len() <= MOST_ATOMS_COUNTED
    }

    /// The same call about each of the two files.
    fn both(&self, call: impl Fn(Vec<u32>) -> Call) -> [Call; 2] {
        [0, 1].map(|side: usize| call(self.drafts[side].words()))
    }
}

/// Pairs of small files and one of a large one.
pub fn shuffles_hold(
    program: &Program,
    maker: &mut Maker,
    files: usize,
    tally: &mut Tally,
) -> Result<(), Difference> {
    let mut pairs: Vec<Pair> = (0..files).map(|place| small_pair(maker, place)).collect();
    pairs.push(large_pair(program, maker, tally)?);
    count_pairs(&pairs, tally);
    let reads = pairs
        .iter()
        .flat_map(|pair| pair.both(|file| Call::Read { file }));
    let reads: Vec<Call> = reads.collect();
    let promised = REFUSAL_WORDS + READ_COUNTS;
    let answers = alike(program, &reads, promised, "is not read as before", tally)?;
    if let Some(refused) = answers.iter().position(|answer| answer[0] != 0) {
        return Err(broken(&reads[refused..=refused], "a right file is refused"));
    }
    let actions = actions_alike(program, &pairs, tally)?;
    let tables = rows_alike(program, &mut maker.random, &pairs, tally)?;
    scans_alike(program, &tables, tally)?;
    numberings_differ(program, &tables, tally)?;
    damages_show(program, &mut maker.random, &pairs, &actions, tally)
}

fn small_pair(maker: &mut Maker, place: usize) -> Pair {
    let world = World::tiny(&mut maker.random);
    let draft = small_draft(maker, &world, place);
    let kind = maker.random.below(SHUFFLES.len());
    Pair::new(maker, &world, draft, kind)
}

/// A file at or near the limits, whose rows are asked for.
fn large_pair(program: &Program, maker: &mut Maker, tally: &mut Tally) -> Result<Pair, Difference> {
    let world = World::wide(&mut maker.random);
    let size = Size::big(&mut maker.random);
    let draft = maker.draft(&world, size);
    let most = ROW_WORDS * MOST_ROWS;
    let call = Call::Compile {
        file: draft.words(),
        table: maker.random.words(most),
        scratch: maker.random.words(most),
    };
    let answer = &ask(program, &[call], tally)?[0];
    let kind = maker.random.below(SHUFFLES.len());
    let mut pair = Pair::new(maker, &world, draft, kind);
    pair.rows = (answer[0] == 0).then_some(answer[REFUSAL_WORDS] as usize);
    Ok(pair)
}

fn count_pairs(pairs: &[Pair], tally: &mut Tally) {
    let [shuffles, counted, ..] = &mut tally.shuffles;
    for pair in pairs {
        let [before, after] = pair.both(|file| Call::Read { file });
        shuffles[pair.kind] += usize::from(before != after);
        if !pair.is_counted() {
            continue;
        }
        let atoms = pair.atoms();
        let twice =
            |place: usize| atoms[place].flags != EMPTY && atoms[..place].contains(&atoms[place]);
        let members = [
            atoms.is_empty(),
            (0..atoms.len()).any(twice),
            atoms.iter().any(|atom| atom.flags == EMPTY),
            atoms.iter().any(contradicts),
            atoms.len() >= MORE_ATOMS,
        ];
        for (counted, is_one) in counted.iter_mut().zip(members) {
            *counted += usize::from(is_one);
        }
    }
}

/// The answers to calls that stand two by two, if the first words of the two, which
/// are what is promised, are equal.
fn alike(
    program: &Program,
    calls: &[Call],
    promised: usize,
    what: &str,
    tally: &mut Tally,
) -> Result<Vec<Vec<u32>>, Difference> {
    let answers = ask(program, calls, tally)?;
    for (calls, answers) in calls.chunks(2).zip(answers.chunks(2)) {
        if answers[0][..promised] != answers[1][..promised] {
            return Err(broken(calls, &format!("a shuffled file {what}")));
        }
        tally.properties += 1;
    }
    Ok(answers)
}

/// The answers for each packet of each pair, for both files.
fn actions_alike(
    program: &Program,
    pairs: &[Pair],
    tally: &mut Tally,
) -> Result<Vec<Vec<u32>>, Difference> {
    let mut calls = Vec::new();
    for pair in pairs {
        for packet in &pair.packets {
            let packet = packet.clone();
            calls.extend(pair.both(|file| Call::Action {
                file,
                packet: packet.clone(),
            }));
        }
    }
    let promised = REFUSAL_WORDS + ACTION_WORDS;
    alike(program, &calls, promised, "has another action", tally)
}

/// Words of a table and of a scratch, and the refusal that a compile ends with, which is
/// 0 for none: first just the rows that are needed, then more, one row too few, or too
/// little scratch.
fn lent(random: &mut Random, rows: Option<usize>) -> [(usize, usize, u32); LENT] {
    let Some(rows) = rows else {
        let most = ROW_WORDS * MOST_ROWS;
        return [(most, most, MORE_ROWS), (most - 1, most, MORE_ROWS)];
    };
    let (needed, more) = (ROW_WORDS * rows, ROW_WORDS * (rows + 1));
    let few = random.below(ROW_WORDS);
    let other = match random.below(3) {
        0 if rows > 0 => (needed - 1 - few, needed, MORE_ROWS),
        1 if rows > 0 => (needed, needed - 1 - few, SHORT_SCRATCH),
        _ => (more, more, 0),
    };
    [(needed + few, needed, 0), other]
}

/// The rows of a pair's two files; none if they are more than the most.
struct Tables<'a> {
    pair: &'a Pair,
    rows: [Vec<u32>; 2],
}

/// Both compiles with the same buffers make so many rows, or end with the same refusal.
fn rows_alike<'a>(
    program: &Program,
    random: &mut Random,
    pairs: &'a [Pair],
    tally: &mut Tally,
) -> Result<Vec<Tables<'a>>, Difference> {
    let (mut calls, mut expected) = (Vec::new(), Vec::new());
    for pair in pairs {
        for (table, scratch, number) in lent(random, pair.rows) {
            let (table, scratch) = (random.words(table), random.words(scratch));
            calls.extend(pair.both(|file| Call::Compile {
                file,
                table: table.clone(),
                scratch: scratch.clone(),
            }));
            let rows = pair.rows.filter(|_| number == 0);
            expected.push((number, rows.unwrap_or(0)));
        }
    }
    let what = "is not compiled to as many rows";
    let answers = alike(program, &calls, REFUSAL_WORDS + 1, what, tally)?;
    let asked = calls.chunks(2).zip(answers.chunks(2));
    for ((calls, answers), (number, rows)) in asked.zip(expected) {
        let answer = &answers[0];
        if answer[..PLACED_WORDS] != [number, 0] || answer[REFUSAL_WORDS] as usize != rows {
            return Err(broken(calls, "the rows are not as many as the sets"));
        }
    }
    let first = answers.chunks(2 * LENT).zip(pairs);
    let tables = first.map(|(answers, pair)| Tables {
        pair,
        rows: [0, 1].map(|side: usize| row_words(&answers[side])),
    });
    Ok(tables.collect())
}

/// The words of the rows in the answer of a compile.
fn row_words(answer: &[u32]) -> Vec<u32> {
    let rows = answer[REFUSAL_WORDS] as usize;
    answer[REFUSAL_WORDS + 1..][..ROW_WORDS * rows].to_vec()
}

/// The scans of both tables give the same action; how many rows they try may differ.
fn scans_alike(program: &Program, tables: &[Tables], tally: &mut Tally) -> Result<(), Difference> {
    let mut calls = Vec::new();
    for Tables { pair, rows } in tables {
        for packet in &pair.packets {
            calls.extend(rows.clone().map(|table| Call::Scan {
                table,
                packet: packet.clone(),
            }));
        }
    }
    alike(program, &calls, TRIED_AT, "is scanned otherwise", tally)?;
    Ok(())
}

/// Nothing is promised about the order of the rows and the number of priorities. How
/// often they differ is counted, for files without many atoms.
fn numberings_differ(
    program: &Program,
    tables: &[Tables],
    tally: &mut Tally,
) -> Result<(), Difference> {
    let few = |tables: &&Tables| tables.pair.atoms().len() < MORE_ATOMS;
    let tables: Vec<&Tables> = tables.iter().filter(few).collect();
    let number = |table: Vec<u32>| Call::Number {
        priorities: vec![0; table.len() / ROW_WORDS],
        chain: vec![0; table.len() / ROW_WORDS],
        table,
    };
    let calls = tables
        .iter()
        .flat_map(|tables| tables.rows.clone().map(number));
    let calls: Vec<Call> = calls.collect();
    let answers = ask(program, &calls, tally)?;
    let [_, _, others, ..] = &mut tally.shuffles;
    for (tables, answers) in tables.iter().zip(answers.chunks(2)) {
        let [before, after] = &tables.rows;
        others[0] += usize::from(before != after);
        let priorities = |side: usize| answers[side][PLACED_WORDS];
        others[1] += usize::from(priorities(0) != priorities(1));
    }
    Ok(())
}

/// A file with a change that is no step.
struct Change {
    damage: usize,
    pair: usize,
    file: Vec<u32>,
    rows: usize,
}

impl Change {
    /// The tree's actions, and last the compile with just the room that is needed.
    fn calls(&self, packets: &[Vec<u32>]) -> Vec<Call> {
        let packets = packets.iter().cloned();
        let mut calls: Vec<Call> = packets
            .map(|packet| Call::Action {
                file: self.file.clone(),
                packet,
            })
            .collect();
        calls.push(Call::Compile {
            file: self.file.clone(),
            table: vec![0; ROW_WORDS * self.rows],
            scratch: vec![0; ROW_WORDS * self.rows],
        });
        calls
    }
}

fn some_changes(random: &mut Random, pairs: &[Pair]) -> Vec<Change> {
    let mut changes = Vec::new();
    for (place, pair) in pairs.iter().enumerate() {
        if !pair.is_counted() || !is_telling(place) {
            continue;
        }
        for damage in 0..DAMAGES.len() {
            let draft = unlike(random, &pair.drafts[0], damage);
            changes.push(Change {
                damage,
                pair: place,
                file: draft.words(),
                rows: shared_sets(&draft.atoms),
            });
        }
    }
    changes
}

/// How often a change that is no step gives some packet another action, or makes
/// another number of rows.
fn damages_show(
    program: &Program,
    random: &mut Random,
    pairs: &[Pair],
    actions: &[Vec<u32>],
    tally: &mut Tally,
) -> Result<(), Difference> {
    let changes = some_changes(random, pairs);
    let calls = changes
        .iter()
        .map(|one| one.calls(&pairs[one.pair].packets));
    let calls: Vec<Vec<Call>> = calls.collect();
    let answers = ask(program, &calls.concat(), tally)?;
    let before: Vec<&[Vec<u32>]> = actions.chunks(2 * PACKETS).collect();
    let answers = answers.chunks(PACKETS + 1);
    for ((change, calls), answers) in changes.iter().zip(calls).zip(answers) {
        let (found, compiled) = answers.split_at(PACKETS);
        let rows = compiled[0][REFUSAL_WORDS] as usize;
        if compiled[0][0] != 0 || rows != change.rows {
            let what = "the rows are not as many as the sets";
            return Err(broken(&calls[PACKETS..], what));
        }
        tally.properties += 1;
        let mut unshuffled = before[change.pair].iter().step_by(2).zip(found);
        let [.., by_action, by_rows] = &mut tally.shuffles;
        by_action[change.damage] += usize::from(unshuffled.any(|(one, two)| one != two));
        if change.damage == LAST {
            by_rows[0] += usize::from(pairs[change.pair].rows != Some(rows));
        }
    }
    Ok(())
}

fn broken(calls: &[Call], what: &str) -> Difference {
    let report = format!("property broken: {what}");
    Difference {
        calls: calls.to_vec(),
        report,
    }
}
