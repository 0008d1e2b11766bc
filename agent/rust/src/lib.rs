//! The scan of a switch's table for a packet, and the numbering of its rows, from the proved library `libagent.a`.
//!
//! Tables, packets and buffers are bytes: words of 32 bits, of each word the lowest byte first. A table is rows of
//! [`ROW_BYTES`], a packet [`PACKET_BYTES`]. What the words mean, and every answer: docs/FORMAT.md, of which "The
//! agent's calls" is the section of this package. Rows and places are counted from 0.
//!
//! Both functions are proved to give the answer of docs/FORMAT.md for every input. They read the table where it lies,
//! take no memory but next to no stack, and keep nothing: any number of threads may call at once.
//!
//! ```
//! use qadhmuleh_agent::{scan, Action, Decision, Packet};
//! use std::net::Ipv4Addr;
//!
//! // One row: destination 10.7.0.0/16, deny.
//! let row: [u32; 11] = [0, 0, 0x0a07_0000, 0, 0, 0, 0, 16, 0, 2, 0];
//! let table: Vec<u8> = row.iter().flat_map(|word| word.to_le_bytes()).collect();
//!
//! let packet = Packet {
//!     in_port: 1,
//!     source: Ipv4Addr::new(10, 0, 0, 1),
//!     destination: Ipv4Addr::new(10, 7, 3, 9),
//!     protocol: 6,
//!     source_port: 50000,
//!     destination_port: 443,
//! };
//! let decision = scan(&table, &packet.to_bytes())?;
//! assert_eq!(decision, Decision { action: Action::Deny, tried: 1 });
//! # Ok::<(), qadhmuleh_agent::Refusal>(())
//! ```
#![deny(unsafe_code)]
#![deny(unsafe_op_in_unsafe_fn)]
#![warn(missing_docs)]

#[allow(unsafe_code)]
mod library;
mod refusal;

use std::net::Ipv4Addr;

pub use refusal::Refusal;

/// How many bytes a packet has: six words.
pub const PACKET_BYTES: usize = 24;

/// How many bytes a row has: 11 words.
pub const ROW_BYTES: usize = 44;

/// How many rows a table may have.
pub const MOST_ROWS: usize = 4096;

/// A priority buffer and a chain buffer of so many bytes are long enough for every table.
pub const MOST_BUFFER_BYTES: usize = 4 * MOST_ROWS;

/// The largest rate that can be reserved, in kbit/s.
pub const MOST_KBITS: u32 = 100_000_000;

/// How many bytes an answer of the library has: four words.
const ANSWER_BYTES: usize = 16;

/// What a row says of a packet.
#[derive(Clone, Copy, Debug, PartialEq, Eq, Hash)]
pub enum Action {
    /// Nothing is said.
    DontCare,
    /// The packet may pass.
    Allow,
    /// It may not.
    Deny,
    /// It may pass, and bandwidth is reserved.
    Reserve {
        /// The guaranteed minimum in kbit/s, 1..=[`MOST_KBITS`].
        kbits: u32,
    },
}

impl Action {
    /// The action that two words of a row are, its kind and its rate; none if they are wrong.
    pub fn from_words(kind: u32, rate: u32) -> Option<Action> {
        match (kind, rate) {
            (0, 0) => Some(Action::DontCare),
            (1, 0) => Some(Action::Allow),
            (2, 0) => Some(Action::Deny),
            (3, 1..=MOST_KBITS) => Some(Action::Reserve { kbits: rate }),
            _ => None,
        }
    }
}

/// What the scan finds for a packet.
#[derive(Clone, Copy, Debug, PartialEq, Eq, Hash)]
pub struct Decision {
    /// The action of the first row that the packet meets; [`Action::DontCare`] where it meets none.
    pub action: Action,
    /// How many rows were tried: the place of the row that decided, and 1; all rows where none is met.
    pub tried: usize,
}

/// A packet by its values, none of which can be beyond its range.
#[derive(Clone, Copy, Debug, PartialEq, Eq, Hash)]
pub struct Packet {
    /// The port of the switch that it came in by.
    pub in_port: u16,
    /// The address that it came from.
    pub source: Ipv4Addr,
    /// The address that it goes to.
    pub destination: Ipv4Addr,
    /// The protocol's number, such as 1 (ICMP), 6 (TCP) or 17 (UDP).
    pub protocol: u8,
    /// The source port; 0 is usual where the protocol has no ports.
    pub source_port: u16,
    /// The destination port; the same.
    pub destination_port: u16,
}

impl Packet {
    /// The six words as bytes.
    pub fn to_bytes(&self) -> [u8; PACKET_BYTES] {
        let words = [
            self.in_port.into(),
            self.source.into(),
            self.destination.into(),
            self.protocol.into(),
            self.source_port.into(),
            self.destination_port.into(),
        ];
        let mut bytes = [0; PACKET_BYTES];
        for (four, word) in bytes.chunks_exact_mut(4).zip(words) {
            four.copy_from_slice(&u32::to_le_bytes(word));
        }
        bytes
    }
}

/// The action of the first row that a packet meets, and how many rows were tried.
///
/// # Errors
///
/// In this order: [`Refusal::WrongLength`], [`Refusal::WrongPacket`], [`Refusal::WrongTable`], [`Refusal::WrongRow`].
/// Every row is tested, also behind the one that decides.
pub fn scan(table: &[u8], packet: &[u8; PACKET_BYTES]) -> Result<Decision, Refusal> {
    let answer = library::scan(table, packet);
    let [place, kind, rate, tried] = answer.words;
    match (answer.number, Action::from_words(kind, rate)) {
        (0, Some(action)) => Ok(Decision {
            action,
            tried: tried as usize,
        }),
        (0, None) => {
            panic!("the library answered {kind} {rate}, which docs/FORMAT.md knows as no action")
        }
        (number, _) => Err(Refusal::of(number, place)),
    }
}

/// Numbers the rows of a table with the fewest priorities, so that a switch that obeys the matching row of highest
/// priority does what the scan does. The answer is how many priorities there are.
///
/// Word i of `priorities` becomes that of row i, from 1 to the answer. As many words of `chain` as the answer says
/// become the places of rows of which each overlaps the next: with fewer priorities it cannot be done. All bytes behind
/// these stay; after a refusal every byte does. Each buffer has at least one word for each row.
///
/// ```
/// use qadhmuleh_agent::{number, words};
///
/// // Two rows that every packet meets: allow, then deny.
/// let rows: [u32; 22] = [0, 0, 0, 0, 0, 0, 0, 0, 0, 1, 0, 0, 0, 0, 0, 0, 0, 0, 0, 0, 2, 0];
/// let table: Vec<u8> = rows.iter().flat_map(|word| word.to_le_bytes()).collect();
/// let (mut priorities, mut chain) = ([0; 8], [0; 8]);
/// assert_eq!(number(&table, &mut priorities, &mut chain)?, 2);
/// assert!(words(&priorities).eq([2, 1]));
/// assert!(words(&chain).eq([0, 1]));
/// # Ok::<(), qadhmuleh_agent::Refusal>(())
/// ```
///
/// # Errors
///
/// In this order: [`Refusal::WrongLength`], [`Refusal::WrongTable`], [`Refusal::WrongRow`], [`Refusal::ShortBuffer`].
pub fn number(table: &[u8], priorities: &mut [u8], chain: &mut [u8]) -> Result<u32, Refusal> {
    let answer = library::number(table, priorities, chain);
    let [place, priorities, ..] = answer.words;
    match answer.number {
        0 => Ok(priorities),
        number => Err(Refusal::of(number, place)),
    }
}

/// The words that some bytes are. Bytes behind the last whole word are left out.
pub fn words(bytes: &[u8]) -> impl Iterator<Item = u32> + '_ {
    bytes
        .chunks_exact(4)
        .map(|four| u32::from_le_bytes([four[0], four[1], four[2], four[3]]))
}

#[cfg(test)]
mod tests;
