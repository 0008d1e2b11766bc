//! A world is a few values for each field. Rows and packets drawn from one world
//! are near each other, so that matches nest, overlap and miss. Every world has the
//! protocols with ports, and others beside them.

use crate::model::action::{Action, MOST_RATE};
use crate::model::fields::{
    Fields, Kind, Packet, FIELD_COUNT, KINDS, MOST_PORT, MOST_PROTOCOL, WITH_PORTS,
};
use crate::model::matches::{Match, Prefix, WORD_BITS};
use crate::model::record::RawRow;
use crate::model::rows::Row;
use crate::numberings::lengths;
use crate::ports::{constrains_port, contradicted, reconciled, WITHOUT_PORTS};
use crate::random::Random;
use crate::sums::{lacking, NEAR_THE_CAP};

pub struct World {
    pools: Fields<Vec<u32>>,
    lengths: Vec<u32>,
    rates: Vec<u32>,
    /// Chance in percent that a row constrains a field.
    constrained: usize,
    /// Chance in percent that an action is a GMB.
    reserving: usize,
}

impl World {
    pub fn tiny(random: &mut Random) -> World {
        World {
            pools: Fields {
                in_port: different(random, &[0, 1, 2, MOST_PORT - 1, MOST_PORT], 2),
                source: near_addresses(random, 3),
                destination: near_addresses(random, 4),
                protocol: [&WITH_PORTS[..], &different(random, &WITHOUT_PORTS, 2)].concat(),
                source_port: different(random, &[0, 1, 80, MOST_PORT - 1, MOST_PORT], 2),
                destination_port: different(random, &[0, 22, 80, 443, MOST_PORT], 2),
            },
            lengths: some_lengths(random),
            rates: some_rates(random),
            constrained: random.pick(&[0, 15, 30, 50, 80]),
            reserving: some_reserving(random),
        }
    }

    /// So many values that few rows overlap: big tables stay near their atoms.
    pub fn wide(random: &mut Random) -> World {
        let addresses = random.words(3_000);
        World {
            pools: Fields {
                in_port: (0..3_000).collect(),
                source: addresses.clone(),
                destination: addresses,
                protocol: (0..=MOST_PROTOCOL).collect(),
                source_port: vec![0, 80, MOST_PORT],
                destination_port: vec![0, 443],
            },
            lengths: vec![24, 31, 32],
            rates: some_rates(random),
            constrained: random.pick(&[97, 99, 100]),
            reserving: some_reserving(random),
        }
    }

    /// Rows that constrain nothing at all.
    pub fn open(random: &mut Random) -> World {
        World {
            constrained: 0,
            ..World::tiny(random)
        }
    }

    /// A right row.
    pub fn row(&self, random: &mut Random) -> Row {
        let mut matching = Match {
            source: self.prefix(random, &self.pools.source),
            destination: self.prefix(random, &self.pools.destination),
            ..Match::default()
        };
        for (place, (kind, pool)) in KINDS.pairs(&self.pools).enumerate() {
            if *kind != Kind::Address && random.percent(self.constrained) {
                matching = matching.with(place, Prefix::exactly(random.pick(pool)));
            }
        }
        let matching = reconciled(random, matching);
        let action = self.action(random);
        Row { matching, action }
    }

    /// A right atom: a row, or sometimes an empty match of either kind.
    pub fn atom(&self, random: &mut Random) -> RawRow {
        let atom = self.row(random).raw();
        match random.below(25) {
            0 => atom.emptied(),
            1 | 2 => contradicted(random, &atom),
            _ => atom,
        }
    }

    pub fn rows(&self, random: &mut Random, count: usize) -> Vec<RawRow> {
        (0..count).map(|_| self.row(random).raw()).collect()
    }

    /// Rows of which many are near an earlier one.
    pub fn nested_rows(&self, random: &mut Random, count: usize) -> Vec<RawRow> {
        let fresh = random.pick(&[10, 30, 60]);
        let mut rows: Vec<Row> = Vec::new();
        for _ in 0..count {
            let row = if rows.is_empty() || random.percent(fresh) {
                self.row(random)
            } else {
                let earlier = random.pick(&rows);
                self.near(random, earlier.matching)
            };
            rows.push(row);
        }
        rows.iter().map(Row::raw).collect()
    }

    /// A row whose match is this one, or narrower or wider in up to three values.
    fn near(&self, random: &mut Random, mut matching: Match) -> Row {
        for _ in 0..random.below(4) {
            let place = random.below(FIELD_COUNT);
            let old = *matching.list()[place];
            let new = if random.percent(70) {
                self.narrower(random, place, old)
            } else {
                self.wider(random, place, old)
            };
            matching = matching.with(place, new);
        }
        let matching = reconciled(random, matching);
        let action = self.action(random);
        Row { matching, action }
    }

    /// Inside this prefix, and cut from a value of the pool as all prefixes are.
    fn narrower(&self, random: &mut Random, place: usize, prefix: Prefix) -> Prefix {
        let pool = self.pools.list()[place].iter().copied();
        let covered: Vec<u32> = pool.filter(|value| prefix.covers(*value)).collect();
        let value = random.pick(&covered);
        match KINDS.list()[place] {
            Kind::Address => {
                let length = prefix.length.max(random.pick(&self.lengths));
                Prefix::of(cut(value, length), length)
            }
            Kind::Number { .. } => Prefix::exactly(value),
        }
    }

    fn wider(&self, random: &mut Random, place: usize, prefix: Prefix) -> Prefix {
        match KINDS.list()[place] {
            Kind::Address => {
                let length = prefix.length.min(random.pick(&self.lengths));
                Prefix::of(cut(prefix.value, length), length)
            }
            Kind::Number { .. } => Prefix::default(),
        }
    }

    fn prefix(&self, random: &mut Random, pool: &[u32]) -> Prefix {
        if !random.percent(self.constrained) {
            return Prefix::default();
        }
        let length = random.pick(&self.lengths);
        Prefix::of(cut(random.pick(pool), length), length)
    }

    fn action(&self, random: &mut Random) -> Action {
        if random.percent(self.reserving) {
            return Action::Gmb(random.pick(&self.rates));
        }
        match random.below(5) {
            0 => Action::DontCare,
            1 | 2 => Action::Allow,
            _ => Action::Deny,
        }
    }

    /// A right packet, mostly of this world's values.
    pub fn packet(&self, random: &mut Random) -> Packet {
        let packet = Packet::from_list(self.pools.list().map(|pool| random.pick(pool)));
        if !random.percent(25) {
            return packet;
        }
        let place = random.below(FIELD_COUNT);
        let value = match KINDS.list()[place] {
            Kind::Address => packet.list()[place] ^ 1 << random.below(32),
            Kind::Number { most, .. } => random.word() % (most + 1),
        };
        packet.with(place, value)
    }

    /// A right packet of the world's values, or one that meets one of the rows.
    pub fn packet_near(&self, random: &mut Random, rows: &[RawRow]) -> Packet {
        if rows.is_empty() || random.percent(50) {
            return self.packet(random);
        }
        let row = random.pick(rows);
        self.packet_of(random, &row)
    }

    /// A right packet that meets this right row; what the row leaves open is as in any.
    fn packet_of(&self, random: &mut Random, row: &RawRow) -> Packet {
        let mut packet = self.packet(random);
        for (place, kind) in KINDS.list().into_iter().enumerate() {
            let (wanted, any) = (*row.values.list()[place], *packet.list()[place]);
            let value = match *kind {
                Kind::Number { flag, .. } if row.flags & flag == 0 => any,
                Kind::Number { .. } => wanted,
                Kind::Address => wanted | any ^ cut(any, *lengths(row).list()[place]),
            };
            packet = packet.with(place, value);
        }
        if constrains_port(row) && !WITH_PORTS.contains(&packet.protocol) {
            packet.protocol = random.pick(&WITH_PORTS);
        }
        packet
    }

    /// Every packet of the world's values. Two rows of a tiny world overlap
    /// exactly if one of these meets both: a constrained value is in its pool, the
    /// protocols with ports are in theirs, and the longer of two nested prefixes was
    /// cut from an address in its pool.
    pub fn packets(&self) -> Vec<Packet> {
        let mut packets = vec![Packet::default()];
        for (place, pool) in self.pools.list().into_iter().enumerate() {
            let each = |packet: Packet| pool.iter().map(move |value| packet.with(place, *value));
            packets = packets.into_iter().flat_map(each).collect();
        }
        packets
    }
}

/// The address with the bits beyond the length cleared.
fn cut(address: u32, length: u32) -> u32 {
    (u64::from(address) & !(u64::from(u32::MAX) >> length)) as u32
}

fn some(random: &mut Random, values: &[u32], count: usize) -> Vec<u32> {
    (0..count).map(|_| random.pick(values)).collect()
}

/// So many of the values, each at most once.
fn different(random: &mut Random, values: &[u32], count: usize) -> Vec<u32> {
    let mut left = values.to_vec();
    let mut taken = |_| left.swap_remove(random.below(left.len()));
    (0..count).map(&mut taken).collect()
}

/// Addresses that differ from each other in a bit or two.
fn near_addresses(random: &mut Random, count: usize) -> Vec<u32> {
    let mut addresses = vec![random.pick(&[0, 1, 0x0A07_0309, u32::MAX, 1 << 31])];
    if random.percent(30) {
        addresses[0] = random.word();
    }
    while addresses.len() < count {
        addresses.push(random.pick(&addresses) ^ 1 << random.below(32));
    }
    addresses
}

fn some_lengths(random: &mut Random) -> Vec<u32> {
    let mut lengths = some(random, &[0, 1, 8, 16, 24, 31, 32], 3);
    lengths.push(random.word() % (WORD_BITS + 1));
    lengths
}

/// Actions of all kinds, or nearly all GMBs, so that many rates are joined.
fn some_reserving(random: &mut Random) -> usize {
    random.pick(&[35, 95])
}

/// One rate and what it lacks to the cap, or four and what one and two of them lack. They
/// are near the cap, small or any.
fn some_rates(random: &mut Random) -> Vec<u32> {
    let mut drawn = some(random, &NEAR_THE_CAP, 2);
    drawn.push(random.pick(&[1, 2, 3, 4, 40_000]));
    drawn.push(1 + random.word() % MOST_RATE);
    let count = random.pick(&[1, 4]);
    let mut rates = some(random, &drawn, count);
    for terms in 1..=count.min(2) {
        let summed = some(random, &rates[..count], terms);
        rates.push(lacking(random, &summed));
    }
    rates
}
