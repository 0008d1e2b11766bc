//! Packets and matches.

/// A packet's values in the order of its words; a match has them at the same places.
pub const IN_PORT: usize = 0;
pub const SOURCE: usize = IN_PORT + 1;
pub const DESTINATION: usize = SOURCE + 1;
pub const PROTOCOL: usize = DESTINATION + 1;
pub const SOURCE_PORT: usize = PROTOCOL + 1;
pub const DESTINATION_PORT: usize = SOURCE_PORT + 1;
pub const PACKET_WORDS: usize = DESTINATION_PORT + 1;

/// Behind them in a match, and behind that a row's action.
pub const SOURCE_LENGTH: usize = PACKET_WORDS;
pub const DESTINATION_LENGTH: usize = PACKET_WORDS + 1;
pub const FLAGS: usize = PACKET_WORDS + 2;
pub const KIND: usize = FLAGS + 1;
pub const RATE: usize = KIND + 1;
pub const ROW_WORDS: usize = RATE + 1;

/// An atom or a row: a match, then an action's kind and rate.
pub type Row = [u32; ROW_WORDS];
pub type Packet = [u32; PACKET_WORDS];

/// Where a value stands, the flag that says it is constrained, and its limit.
pub const VALUES: [(usize, u32, u32); 4] = [
    (IN_PORT, OF_IN_PORT, PORTS),
    (PROTOCOL, OF_PROTOCOL, PROTOCOLS),
    (SOURCE_PORT, OF_SOURCE_PORT, PORTS),
    (DESTINATION_PORT, OF_DESTINATION_PORT, PORTS),
];
pub const OF_IN_PORT: u32 = 1;
pub const OF_PROTOCOL: u32 = 2;
pub const OF_SOURCE_PORT: u32 = 4;
pub const OF_DESTINATION_PORT: u32 = 8;
const OF_A_PORT: u32 = OF_SOURCE_PORT | OF_DESTINATION_PORT;
pub const PORTS: u32 = 65536;
pub const PROTOCOLS: u32 = 256;

/// The protocols that have ports.
pub const TCP: u32 = 6;
pub const UDP: u32 = 17;

/// Where an address stands, and where its prefix length.
pub const PREFIXES: [(usize, usize); 2] = [(SOURCE, SOURCE_LENGTH), (DESTINATION, DESTINATION_LENGTH)];
const ADDRESS_BITS: u32 = 32;

/// The flag that empties a match by itself, and those of the values together.
pub const EMPTY: u32 = 16;
const CONSTRAINED: u32 = {
    let (mut flags, mut i) = (0, 0);
    while i < VALUES.len() {
        flags |= VALUES[i].1;
        i += 1;
    }
    flags
};

fn has_ports(protocol: u32) -> bool {
    matches!(protocol, TCP | UDP)
}

/// Whether a protocol that has ports suits the match.
fn leaves_ports(m: &Row) -> bool {
    m[FLAGS] & OF_PROTOCOL == 0 || has_ports(m[PROTOCOL])
}

/// Whether no packet meets a right match.
pub fn is_empty(m: &Row) -> bool {
    m[FLAGS] & EMPTY != 0 || m[FLAGS] & OF_A_PORT != 0 && !leaves_ports(m)
}

pub fn meets(m: &Row, p: &Packet) -> bool {
    m[FLAGS] & EMPTY == 0
        && in_prefix(m[DESTINATION], m[DESTINATION_LENGTH], p[DESTINATION])
        && in_prefix(m[SOURCE], m[SOURCE_LENGTH], p[SOURCE])
        && VALUES
            .iter()
            .all(|&(at, flag, _)| m[FLAGS] & flag == 0 || m[at] == p[at])
        && (m[FLAGS] & OF_A_PORT == 0 || has_ports(p[PROTOCOL]))
}

pub fn overlap(a: &Row, b: &Row) -> bool {
    let (either, both) = (a[FLAGS] | b[FLAGS], a[FLAGS] & b[FLAGS]);
    either & EMPTY == 0
        && prefixes_meet(a, b, DESTINATION, DESTINATION_LENGTH)
        && prefixes_meet(a, b, SOURCE, SOURCE_LENGTH)
        && VALUES.iter().all(|&(at, flag, _)| both & flag == 0 || a[at] == b[at])
        && (either & OF_A_PORT == 0 || leaves_ports(a) && leaves_ports(b))
}

/// Whether a's match lies wholly inside b's; neither is empty.
pub fn inside(a: &Row, b: &Row) -> bool {
    prefix_inside(a, b, DESTINATION, DESTINATION_LENGTH)
        && prefix_inside(a, b, SOURCE, SOURCE_LENGTH)
        && b[FLAGS] & !a[FLAGS] == 0
        && VALUES
            .iter()
            .all(|&(at, flag, _)| b[FLAGS] & flag == 0 || a[at] == b[at])
}

/// The common match of two rows that overlap, with no action.
pub fn common(a: &Row, b: &Row) -> Row {
    let mut m = [0; ROW_WORDS];
    for (at, flag, _) in VALUES {
        m[at] = if a[FLAGS] & flag != 0 { a[at] } else { b[at] };
    }
    for (at, length) in PREFIXES {
        let longer = if a[length] > b[length] { a } else { b };
        m[at] = longer[at];
        m[length] = longer[length];
    }
    m[FLAGS] = a[FLAGS] | b[FLAGS];
    m
}

pub fn right_match(m: &Row) -> bool {
    if m[FLAGS] == EMPTY {
        return m[..FLAGS].iter().all(|&w| w == 0);
    }
    m[FLAGS] & !CONSTRAINED == 0
        && VALUES
            .iter()
            .all(|&(at, flag, limit)| m[at] < limit && (m[FLAGS] & flag != 0 || m[at] == 0))
        && right_prefix(m[SOURCE], m[SOURCE_LENGTH])
        && right_prefix(m[DESTINATION], m[DESTINATION_LENGTH])
}

pub fn right_packet(words: &[u32]) -> Option<&Packet> {
    let p: &Packet = words.try_into().ok()?;
    is_right(p).then_some(p)
}

pub fn is_right(p: &Packet) -> bool {
    VALUES.iter().all(|&(at, _, limit)| p[at] < limit)
}

fn in_prefix(p: u32, length: u32, x: u32) -> bool {
    length.min(ADDRESS_BITS) <= (p ^ x).leading_zeros()
}

fn prefixes_meet(a: &Row, b: &Row, at: usize, length: usize) -> bool {
    in_prefix(a[at], a[length].min(b[length]), b[at])
}

fn prefix_inside(a: &Row, b: &Row, at: usize, length: usize) -> bool {
    b[length] <= a[length] && in_prefix(b[at], b[length], a[at])
}

fn right_prefix(p: u32, length: u32) -> bool {
    length <= ADDRESS_BITS && u64::from(p) << length & 0xffff_ffff == 0
}
