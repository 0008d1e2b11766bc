//! Refusals, in words.
#![forbid(unsafe_code)]

use std::error::Error;
use std::fmt::{self, Display, Formatter};

use crate::{MOST_BUFFER_BYTES, MOST_ROWS};

/// The numbers that the library returns.
const WRONG_PACKET: u32 = 11;
const WRONG_TABLE: u32 = 15;
const WRONG_ROW: u32 = 16;
const SHORT_BUFFER: u32 = 17;
const WRONG_LENGTH: u32 = 21;

/// Why a table, a packet or a buffer is refused. As text it says what is wrong, where, and the likely cure.
#[derive(Clone, Copy, Debug, PartialEq, Eq, Hash)]
pub enum Refusal {
    /// A value of the packet is beyond its range.
    WrongPacket,
    /// The table is not whole rows, or has more than [`MOST_ROWS`].
    WrongTable,
    /// A row has a wrong match, one that no packet can meet, or a wrong action.
    WrongRow {
        /// The first such row, counted from 0.
        place: usize,
    },
    /// The priority buffer or the chain buffer has fewer words than the table has rows.
    ShortBuffer,
    /// The length of the table or of a buffer is not a multiple of 4.
    WrongLength,
}

impl Refusal {
    /// The number that the library returns for it.
    pub fn number(self) -> u32 {
        match self {
            Refusal::WrongPacket => WRONG_PACKET,
            Refusal::WrongTable => WRONG_TABLE,
            Refusal::WrongRow { .. } => WRONG_ROW,
            Refusal::ShortBuffer => SHORT_BUFFER,
            Refusal::WrongLength => WRONG_LENGTH,
        }
    }

    /// The place that the library answers with it: the row that is wrong, 0 for any other.
    pub fn place(self) -> usize {
        match self {
            Refusal::WrongRow { place } => place,
            _ => 0,
        }
    }

    /// What is wrong, and the likely cure, without the place.
    pub fn meaning(self) -> &'static str {
        match self {
            Refusal::WrongPacket => {
                "a packet is six words, of which in-port and ports are up to 65535, the protocol up to 255; \
                 put each value into a word of its own"
            }
            Refusal::WrongTable => {
                "a table is whole rows of 11 words, and 4096 of them at most; lend just the rows that the compile \
                 counted, without the hidden ones if they are too many"
            }
            Refusal::WrongRow { .. } => {
                "the row has a wrong match, one that no packet can meet, or a wrong action; lend the table as the \
                 compile wrote it, of each word the lowest byte first"
            }
            Refusal::ShortBuffer => {
                "the priority buffer or the chain buffer is too short; give each 4 bytes for each row, or 16384"
            }
            Refusal::WrongLength => {
                "the length of the table or of a buffer is not a multiple of 4; give whole words of 4 bytes"
            }
        }
    }

    /// The refusal of a number that is not 0.
    pub(crate) fn of(number: u32, place: u32) -> Refusal {
        match number {
            WRONG_PACKET => Refusal::WrongPacket,
            WRONG_TABLE => Refusal::WrongTable,
            WRONG_ROW => Refusal::WrongRow {
                place: place as usize,
            },
            SHORT_BUFFER => Refusal::ShortBuffer,
            WRONG_LENGTH => Refusal::WrongLength,
            _ => panic!(
                "the library returned {number}, which docs/FORMAT.md does not give to its calls"
            ),
        }
    }
}

impl Display for Refusal {
    fn fmt(&self, out: &mut Formatter<'_>) -> fmt::Result {
        write!(out, "refused {} {}: ", self.number(), self.place())?;
        if let Refusal::WrongRow { place } = self {
            write!(out, "row {place}: ")?;
        }
        out.write_str(self.meaning())
    }
}

impl Error for Refusal {}

// The texts above have these numbers.
const _: () = assert!(MOST_ROWS == 4096 && MOST_BUFFER_BYTES == 16384);
