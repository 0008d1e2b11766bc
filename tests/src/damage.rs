//! Damage: right policies, rows, packets and words made wrong in one or two places.

use crate::calls::WORD_BYTES;
use crate::model::action::{GMB, MOST_RATE};
use crate::model::agent::ANSWER_BYTES;
use crate::model::edition::{
    Edition, DEEPEST, MOST_ATOMS, MOST_CHILDREN, MOST_NODES, MOST_OPERATORS, NEWEST, NODE_WORDS,
    PACKET_WORDS,
};
use crate::model::fields::{Kind, Packet, KINDS, MOST_PORT, MOST_PROTOCOL};
use crate::model::matches::WORD_BITS;
use crate::model::operator::{GIVE_LARGER, GIVE_SMALLER, GIVE_SUM};
use crate::model::record::{RawRow, EMPTY};
use crate::policies::Draft;
use crate::random::Random;
use crate::stock::Stock;
use crate::world::World;

/// Bits of the flags that are changed one by one: those with a meaning, and one more.
const FLAG_BITS: usize = 6;

/// The draft's words with one or two faults, which now and then cancel out.
pub fn damaged(random: &mut Random, stock: &Stock, world: &World, draft: &Draft) -> Vec<u32> {
    let mut draft = draft.clone();
    let by_record = random.percent(65);
    if by_record {
        damage_record(random, stock, world, &mut draft);
        if random.percent(20) {
            damage_record(random, stock, world, &mut draft);
        }
    }
    let mut words = draft.words();
    if !by_record || random.percent(15) {
        damage_words(random, &draft.count_words(), &mut words);
    }
    words
}

fn damage_record(random: &mut Random, stock: &Stock, world: &World, draft: &mut Draft) {
    if draft.nodes.is_empty() {
        return;
    }
    let node = random.below(draft.nodes.len());
    let operator = random.below(draft.operators.len());
    match random.below(16) {
        0 => {
            let code = wrong_code(random);
            let cell = random.below(draft.edition.operator_words());
            draft.operators[operator][cell] = code;
        }
        1 => draft.operators[operator] = random.pick(&stock.commutative),
        2 => draft.operators[operator] = draft.edition.parent(),
        3 if random.below(2) == 0 => draft.nodes[node].inner = operator as u32,
        3 => draft.nodes[node].sibling = operator as u32,
        4 | 5 => spoil_some_atom(random, draft),
        6 => spoil_node(random, draft, node),
        7 => change_by_one(random, &mut draft.nodes[node].atoms),
        8 | 9 => change_by_one(random, &mut draft.nodes[node].children),
        10 => {
            let other = random.below(draft.nodes.len());
            draft.nodes.swap(node, other);
        }
        11 => draft.nodes.insert(node, draft.nodes[node]),
        12 => drop(draft.nodes.remove(node)),
        13 => draft.atoms.push(world.atom(random)),
        14 => drop(draft.atoms.pop()),
        _ => deepen(random, draft, node),
    }
}

fn wrong_code(random: &mut Random) -> u32 {
    let of_rates = [GIVE_LARGER, GIVE_SMALLER, GIVE_SUM];
    let others = [0, GIVE_SUM + 1, GIVE_SUM + 2, 16, u32::MAX];
    random.pick(&[&of_rates[..], &others].concat())
}

fn change_by_one(random: &mut Random, word: &mut u32) {
    *word = if random.percent(50) {
        *word + 1
    } else {
        word.saturating_sub(1)
    };
}

/// An index or count that is too large, or just not too large.
fn spoil_node(random: &mut Random, draft: &mut Draft, node: usize) {
    let near = |limit: usize| [limit as u32 - 1, limit as u32, limit as u32 + 1, u32::MAX];
    let [under, many, over, most] = near(draft.operators.len());
    let indexes = [under, many, over, MOST_OPERATORS as u32, most];
    let node = &mut draft.nodes[node];
    match random.below(NODE_WORDS) {
        0 => node.inner = random.pick(&indexes),
        1 => node.parent = random.pick(&indexes),
        2 => node.sibling = random.pick(&indexes),
        3 => node.atoms = random.pick(&near(MOST_ATOMS)),
        _ => node.children = random.pick(&near(MOST_CHILDREN)),
    }
}

/// A chain of new nodes under this one, up to one more than the deepest.
fn deepen(random: &mut Random, draft: &mut Draft, node: usize) {
    let mut link = draft.nodes[node];
    link.atoms = 0;
    let links = random.within(1, DEEPEST + 1);
    draft.nodes[node].children += 1;
    for place in 0..links {
        link.children = u32::from(place + 1 < links);
        draft.nodes.insert(node + 1 + place, link);
    }
}

fn spoil_some_atom(random: &mut Random, draft: &mut Draft) {
    if !draft.atoms.is_empty() {
        let atom = random.below(draft.atoms.len());
        spoil_row(random, &mut draft.atoms[atom], draft.edition);
    }
}

/// A wrong match, a wrong action, or a word at a limit. A match that contradicts
/// itself is wrong in tables only, and is made there.
pub fn spoil_row(random: &mut Random, row: &mut RawRow, edition: Edition) {
    let (place, flag, most) = random.pick(&numbers(edition));
    let (flags, kinds) = (edition.flags(), edition.kinds() as u32);
    let mut number = |value: u32| row.values = row.values.with(place, value);
    match random.below(14) {
        0 => row.flags = random.pick(&[flags, EMPTY, EMPTY + 1, 32, 64, 1 << 31, u32::MAX]),
        1 => row.flags |= EMPTY,
        2 => row.flags ^= 1 << random.below(FLAG_BITS),
        3 => {
            number(random.pick(&[most, most + 1]));
            row.flags |= flag;
        }
        4 => {
            number(u32::MAX);
            row.flags |= flag;
        }
        5 => {
            number(1);
            row.flags &= !flag;
        }
        6 => {
            let bit = 1 << random.below(WORD_BITS as usize);
            *either(random, &mut row.values.source, &mut row.values.destination) |= bit;
        }
        7 => {
            let length = random.pick(&[0, 31, 32, 33, 64, u32::MAX]);
            *either(random, &mut row.source_length, &mut row.destination_length) = length;
        }
        8 => spoil_empty(random, row, edition),
        9 => row.kind = random.pick(&[kinds + 1, kinds + 2, 256, u32::MAX]),
        10 => row.rate = random.pick(&[0, 1, MOST_RATE, MOST_RATE + 1, u32::MAX]),
        11 => row.kind = random.below(kinds as usize + 1) as u32,
        12 => (row.kind, row.rate) = (GMB, random.pick(&[0, MOST_RATE + 1, u32::MAX])),
        _ => (row.flags, row.kind) = (flags | EMPTY, kinds + 1),
    }
}

/// The numbers among an edition's values: their place, their flag and the most they may be.
fn numbers(edition: Edition) -> Vec<(usize, u32, u32)> {
    let fields = edition.fields();
    let number = |(place, (has, kind)): (usize, (&bool, &Kind))| match *kind {
        Kind::Number { flag, most } if *has => Some((place, flag, most)),
        _ => None,
    };
    fields
        .pairs(&KINDS)
        .enumerate()
        .filter_map(number)
        .collect()
}

fn either<'a>(random: &mut Random, one: &'a mut u32, two: &'a mut u32) -> &'a mut u32 {
    if random.below(2) == 0 {
        one
    } else {
        two
    }
}

/// Zeros and the flag of the empty match, but for one word before the flags.
fn spoil_empty(random: &mut Random, row: &mut RawRow, edition: Edition) {
    let mut words = row.emptied().words(edition);
    let word = random.pick(&[0, 1, 32]);
    words[random.below(edition.match_words() - 1)] = word;
    *row = RawRow::from_words(&words, edition);
}

/// Faults that know nothing of records, but where the counts stand.
fn damage_words(random: &mut Random, counts: &[usize], words: &mut Vec<u32>) {
    let at = random.below(words.len());
    match random.below(9) {
        0 | 1 => words[at] = odd_word(random, words[at]),
        2 => words.truncate(at),
        3 => words.truncate(random.pick(counts) + random.below(2)),
        4 => {
            let extra = random.within(1, 12);
            words.extend((0..extra).map(|_| odd_word(random, 0)));
        }
        5 => words.insert(at, odd_word(random, words[at])),
        6 => drop(words.remove(at)),
        7 => drop(words.pop()),
        _ => {
            let count = random.pick(counts);
            words[count] = odd_word(random, words[count]);
        }
    }
}

/// Words at the limits of counts, and a few others.
const ODD: [u32; 16] = [
    0,
    1,
    2,
    3,
    16,
    MOST_OPERATORS as u32,
    MOST_OPERATORS as u32 + 1,
    MOST_NODES as u32 - 1,
    MOST_NODES as u32,
    MOST_NODES as u32 + 1,
    MOST_ATOMS as u32 - 1,
    MOST_ATOMS as u32,
    MOST_ATOMS as u32 + 1,
    1 << 16,
    1 << 31,
    u32::MAX,
];

fn odd_word(random: &mut Random, old: u32) -> u32 {
    match random.below(5) {
        0 => old.wrapping_add(1),
        1 => old.wrapping_sub(1),
        2 => random.word(),
        _ => random.pick(&ODD),
    }
}

/// The words of a packet of a wrong length or with a value at or over its limit.
pub fn spoil_packet(random: &mut Random, packet: &Packet) -> Vec<u32> {
    let words = packet.words(NEWEST);
    match random.below(4) {
        0 => words[..random.below(PACKET_WORDS)].to_vec(),
        1 => [words, vec![0; random.within(1, 2)]].concat(),
        _ => spoil_value(random, packet).words(NEWEST),
    }
}

/// The packet with one value, which may be its last word, at or over its limit.
pub fn spoil_value(random: &mut Random, packet: &Packet) -> Packet {
    let mut packet = *packet;
    if random.percent(50) {
        let near = [MOST_PROTOCOL, MOST_PROTOCOL + 1, MOST_PORT, u32::MAX];
        packet.protocol = random.pick(&near);
        return packet;
    }
    let port = random.pick(&[MOST_PORT, MOST_PORT + 1, 1 << 31, u32::MAX]);
    match random.below(3) {
        0 => packet.in_port = port,
        1 => packet.source_port = port,
        _ => packet.destination_port = port,
    }
    packet
}

/// Lengths of an agent's answer that are not its own: of whole words, and others.
const ANSWER_LENGTHS: [usize; 12] = [
    0,
    1,
    WORD_BYTES,
    ANSWER_BYTES - WORD_BYTES,
    ANSWER_BYTES - 3,
    ANSWER_BYTES - 2,
    ANSWER_BYTES - 1,
    ANSWER_BYTES + 1,
    ANSWER_BYTES + 2,
    ANSWER_BYTES + 3,
    ANSWER_BYTES + WORD_BYTES,
    2 * ANSWER_BYTES,
];

/// Wrong lengths of an agent's buffers: of one, or of one and half of the others. The last
/// buffer is the answer.
pub fn spoil_lengths(random: &mut Random, buffers: &mut [&mut Vec<u8>]) {
    let one = random.below(buffers.len());
    let others = random.pick(&[0, 50]);
    let answer = buffers.len() - 1;
    for (place, bytes) in buffers.iter_mut().enumerate() {
        if place != one && !random.percent(others) {
            continue;
        }
        let odd = random.within(1, WORD_BYTES - 1);
        let length = match random.below(2) {
            _ if place == answer => random.pick(&ANSWER_LENGTHS),
            0 => bytes.len() + odd,
            _ => bytes.len().saturating_sub(WORD_BYTES) + odd,
        };
        bytes.truncate(length);
        bytes.extend(random.bytes(length - bytes.len()));
    }
}

/// Any of so many places, the first and the last more often.
pub fn some_place(random: &mut Random, places: usize) -> usize {
    match random.below(6) {
        0 => 0,
        1 | 2 => places - 1,
        _ => random.below(places),
    }
}
