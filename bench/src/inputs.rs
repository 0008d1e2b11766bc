//! The inputs: the same in every run.

use crate::action::{self, ALLOW, Cells, GMB, MOST_RATE};
use crate::flow::{
    DESTINATION, DESTINATION_PORT, FLAGS, IN_PORT, KIND, PACKET_WORDS, PREFIXES, PROTOCOL, Packet, RATE, ROW_WORDS,
    Row, SOURCE, SOURCE_PORT, TCP, UDP, VALUES, meets,
};
use crate::policy::{CHILDREN, HEADER, INNER, NODE_WORDS, OWN, PARENT, SIBLING};

/// Numbers that look random: xorshift.
pub struct Dice(u64);

impl Dice {
    pub fn new() -> Dice {
        Dice(0x9e37_79b9_7f4a_7c15)
    }

    pub fn below(&mut self, n: u32) -> u32 {
        self.0 ^= self.0 << 13;
        self.0 ^= self.0 >> 7;
        self.0 ^= self.0 << 17;
        (self.0 >> 33) as u32 % n
    }
}

/// A row made field by field from one that constrains nothing.
struct Made(Row);

impl Made {
    fn open() -> Made {
        Made([0; ROW_WORDS])
    }

    fn value(mut self, at: usize, value: u32) -> Made {
        let flags = VALUES.iter().filter(|v| v.0 == at).map(|v| v.1);
        self.0[at] = value;
        self.0[FLAGS] |= flags.sum::<u32>();
        self
    }

    /// The first bits of an address.
    fn prefix(mut self, at: usize, address: u32, bits: u32) -> Made {
        for (_, length) in PREFIXES.iter().filter(|p| p.0 == at) {
            self.0[at] = address & !(u64::from(u32::MAX) >> bits) as u32;
            self.0[*length] = bits;
        }
        self
    }

    fn action(mut self, kind: u32, rate: u32) -> Row {
        self.0[KIND] = kind;
        self.0[RATE] = rate;
        self.0
    }
}

/// Rows of which no two overlap: a destination each, in no order.
pub fn disjoint(count: usize) -> Vec<Row> {
    let address = |i: u32| i.wrapping_mul(2_654_435_761);
    (0..count as u32)
        .map(|i| Made::open().prefix(DESTINATION, address(i), 32).action(ALLOW, 0))
        .collect()
}

/// Rows that all overlap: unconstrained.
pub fn overlapping(count: usize) -> Vec<Row> {
    (1..=count as u32).map(|rate| Made::open().action(GMB, rate)).collect()
}

/// Rows that all overlap, with rates of which most pairs add up to more than the largest.
pub fn reservations(count: usize) -> Vec<Row> {
    let share = MOST_RATE / count as u32;
    (1..=count as u32).map(|i| Made::open().action(GMB, i * share)).collect()
}

/// The protocols of the mixed rows. A ping has no ports: its rows constrain none.
const PROTOCOLS: [u32; 3] = [PING, TCP, UDP];
const PING: u32 = 1;

/// Rows as in an access list: prefixes of several lengths in a few networks, some protocols and ports.
pub fn mixed(count: usize) -> Vec<Row> {
    let mut dice = Dice::new();
    (0..count).map(|_| mixed_row(&mut dice)).collect()
}

/// Mixed rows of which each constrains something: behind one that does not, no row is met.
pub fn constrained(count: usize) -> Vec<Row> {
    let mut dice = Dice::new();
    let rows = std::iter::repeat_with(|| mixed_row(&mut dice));
    rows.filter(|row| row[..KIND] != [0; KIND]).take(count).collect()
}

fn mixed_row(dice: &mut Dice) -> Row {
    let mut row = Made::open();
    for (at, _) in PREFIXES {
        let bits = [0, 8, 16, 24, 24, 32, 32, 32][dice.below(8) as usize];
        let address = 10 << 24 | dice.below(8) << 16 | dice.below(16) << 8 | dice.below(64);
        row = row.prefix(at, address, bits);
    }
    for (at, limit) in [
        (IN_PORT, 16),
        (PROTOCOL, PROTOCOLS.len() as u32),
        (SOURCE_PORT, 8),
        (DESTINATION_PORT, 32),
    ] {
        if dice.below(3) == 0 {
            let value = dice.below(limit);
            row = match at {
                PROTOCOL => row.value(at, PROTOCOLS[value as usize]),
                SOURCE_PORT | DESTINATION_PORT if row.0[PROTOCOL] == PING => row,
                _ => row.value(at, value),
            };
        }
    }
    let kind = ALLOW + dice.below(3);
    let rate = if kind == GMB { 1 + dice.below(1000) } else { 0 };
    row.action(kind, rate)
}

/// A packet in the networks of the mixed rows, that no disjoint row is met by.
pub const PACKET: Packet = {
    let mut packet = [0; PACKET_WORDS];
    packet[IN_PORT] = 999;
    packet[SOURCE] = 167_774_000;
    packet[DESTINATION] = 3;
    packet[PROTOCOL] = 200;
    packet[SOURCE_PORT] = 999;
    packet[DESTINATION_PORT] = 999;
    packet
};

/// Packets whose first matching rows lie all over the table; each eighth meets no disjoint and no constrained row.
pub fn packets(rows: &[Row], count: usize) -> Vec<Packet> {
    let mut dice = Dice::new();
    let reached: Vec<Packet> = (0..rows.len())
        .map(|i| (i, meeting(&rows[i])))
        .filter(|(i, packet)| !rows[..*i].iter().any(|earlier| meets(earlier, packet)))
        .map(|(_, packet)| packet)
        .collect();
    let mut packet = |i: usize| match i % 8 {
        7 => ELSEWHERE,
        _ => reached[dice.below(reached.len() as u32) as usize],
    };
    (0..count).map(&mut packet).collect()
}

/// A packet outside the networks of the mixed rows.
const ELSEWHERE: Packet = {
    let mut packet = PACKET;
    packet[SOURCE] = 3;
    packet
};

/// A packet that meets the row, and lies elsewhere by what the row leaves open.
fn meeting(row: &Row) -> Packet {
    let mut packet = ELSEWHERE;
    for (at, flag, _) in VALUES {
        if row[FLAGS] & flag != 0 {
            packet[at] = row[at];
        }
    }
    for (at, length) in PREFIXES {
        let beyond = (u64::from(u32::MAX) >> row[length]) as u32;
        packet[at] = row[at] | packet[at] & beyond;
    }
    if !meets(row, &packet) {
        packet[PROTOCOL] = TCP;
    }
    packet
}

/// A policy file under the two named operators.
pub fn file(atoms: &[Row], nodes: usize) -> Vec<u32> {
    file_under(action::SIBLING, atoms, nodes)
}

/// A policy file: this operator inside nodes and between siblings, parent from node to child, the atoms dealt out to
/// the nodes, and a root with chains of nodes.
pub fn file_under(sibling: Cells, atoms: &[Row], nodes: usize) -> Vec<u32> {
    let operators = [sibling, action::PARENT];
    let mut words = HEADER.to_vec();
    words.push(operators.len() as u32);
    words.extend(operators.iter().flatten());
    words.push(atoms.len() as u32);
    words.extend(atoms.iter().flatten());
    words.push(nodes as u32);
    const CHAIN: usize = 15;
    for i in 0..nodes {
        let children = if i == 0 {
            (nodes - 1).div_ceil(CHAIN)
        } else {
            usize::from(i % CHAIN != 0 && i + 1 < nodes)
        };
        let mut node = [0; NODE_WORDS];
        (node[INNER], node[PARENT], node[SIBLING]) = (0, 1, 0);
        node[OWN] = (atoms.len() * (i + 1) / nodes - atoms.len() * i / nodes) as u32;
        node[CHILDREN] = children as u32;
        words.extend(node);
    }
    words
}
