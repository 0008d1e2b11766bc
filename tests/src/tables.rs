//! Cases about tables: scans, captures and numberings of right and damaged ones, those
//! of an agent too, and hidden rows out of them.

use crate::calls::{to_bytes, Call, MOST_LENT_BYTES};
use crate::cases::Maker;
use crate::damage::{some_place, spoil_lengths, spoil_packet, spoil_row, spoil_value};
use crate::model::agent::ANSWER_BYTES;
use crate::model::capture::FOUND_WORDS;
use crate::model::edition::{NEWEST, PACKET_WORDS, ROW_WORDS};
use crate::model::fields::Packet;
use crate::model::record::RawRow;
use crate::ports::contradicted;
use crate::world::World;

/// The words of a table.
pub fn table_words(rows: &[RawRow]) -> Vec<u32> {
    rows.iter().flat_map(|row| row.words(NEWEST)).collect()
}

/// The words of packets, one behind the other.
pub fn packet_words(packets: &[Packet]) -> Vec<u32> {
    let words = |packet: &Packet| packet.words(NEWEST);
    packets.iter().flat_map(words).collect()
}

impl Maker<'_> {
    /// Words of a table with this many rows, right three times in four.
    fn table(&mut self, world: &World, rows: usize) -> Vec<u32> {
        let rows = world.rows(&mut self.random, rows);
        self.lent(rows)
    }

    /// Rows of which many lie inside earlier ones; sometimes the last are zeros.
    pub fn nested_rows(&mut self, world: &World, rows: usize) -> Vec<RawRow> {
        let zeros = match self.random.below(6) {
            0 => rows.min(self.random.within(1, 3)),
            _ => 0,
        };
        let mut nested = world.nested_rows(&mut self.random, rows - zeros);
        nested.resize(rows, RawRow::default());
        nested
    }

    /// The words of these rows, damaged once in four times.
    fn lent(&mut self, mut rows: Vec<RawRow>) -> Vec<u32> {
        if self.random.percent(18) {
            self.spoil_rows(&mut rows);
        }
        let mut words = table_words(&rows);
        if self.random.percent(7) {
            words.extend(vec![0; self.random.within(1, ROW_WORDS - 1)]);
        } else if self.random.percent(4) {
            words.pop();
        }
        words
    }

    fn spoil_rows(&mut self, rows: &mut [RawRow]) {
        if rows.is_empty() {
            return;
        }
        for _ in 0..self.random.within(1, 2) {
            let place = some_place(&mut self.random, rows.len());
            let row = &mut rows[place];
            match self.random.below(8) {
                0 => *row = row.emptied(),
                1 | 2 => *row = contradicted(&mut self.random, row),
                _ => spoil_row(&mut self.random, row, NEWEST),
            }
        }
    }

    pub fn scan(&mut self, world: &World, rows: usize) -> Call {
        Call::Scan {
            table: self.table(world, rows),
            packet: self.packet(world, 90),
        }
    }

    /// So many packets, of which some meet the rows of a table of so many.
    pub fn capture(&mut self, world: &World, rows: usize, packets: usize) -> Call {
        let rows = world.rows(&mut self.random, rows);
        let packets: Vec<Packet> = (0..packets)
            .map(|_| world.packet_near(&mut self.random, &rows))
            .collect();
        let answers = self.answers(packets.len());
        Call::Capture {
            table: self.lent(rows),
            packets: self.lent_packets(packets),
            answers,
        }
    }

    /// The words of these packets, damaged once in five times.
    fn lent_packets(&mut self, mut packets: Vec<Packet>) -> Vec<u32> {
        if !packets.is_empty() && self.random.percent(15) {
            for _ in 0..self.random.within(1, 2) {
                let place = some_place(&mut self.random, packets.len());
                packets[place] = spoil_value(&mut self.random, &packets[place]);
            }
        }
        let mut words = packet_words(&packets);
        if self.random.percent(5) {
            words.extend(vec![0; self.random.within(1, PACKET_WORDS - 1)]);
        } else if self.random.percent(3) {
            words.pop();
        }
        words
    }

    /// An answer buffer for so many packets: exact, longer, or too short by a word, by
    /// a third, by two thirds or anyhow.
    fn answers(&mut self, packets: usize) -> Vec<u32> {
        let needed = FOUND_WORDS * packets;
        let words = match self.random.below(12) {
            0..=4 => needed,
            5..=7 => needed + self.random.within(1, 2 * FOUND_WORDS),
            8 | 9 => needed.saturating_sub(1),
            10 => packets * self.random.within(1, FOUND_WORDS - 1),
            _ => self.random.within(0, needed),
        };
        self.random.words(words)
    }

    pub fn number(&mut self, world: &World, rows: usize) -> Call {
        let table = self.table(world, rows);
        let priorities = self.buffer(rows);
        let chain = self.buffer(rows);
        Call::Number {
            table,
            priorities,
            chain,
        }
    }

    /// A scan as an agent asks for it; every second packet meets a drawn row.
    pub fn agent_scan(&mut self, world: &World, rows: usize) -> Call {
        let rows = world.rows(&mut self.random, rows);
        let packet = world.packet_near(&mut self.random, &rows);
        let packet = match self.random.below(8) {
            0 => spoil_packet(&mut self.random, &packet),
            _ => packet.words(NEWEST),
        };
        let [mut table, mut packet] = [self.lent(rows), packet].map(|words| to_bytes(&words));
        let mut answer = self.random.bytes(ANSWER_BYTES);
        self.lend(&mut [&mut table, &mut packet, &mut answer]);
        Call::AgentScan {
            table,
            packet,
            answer,
        }
    }

    pub fn agent_number(&mut self, world: &World, rows: usize) -> Call {
        let lent = [
            self.table(world, rows),
            self.buffer(rows),
            self.buffer(rows),
        ];
        let [mut table, mut priorities, mut chain] = lent.map(|words| to_bytes(&words));
        let mut answer = self.random.bytes(ANSWER_BYTES);
        self.lend(&mut [&mut table, &mut priorities, &mut chain, &mut answer]);
        Call::AgentNumber {
            table,
            priorities,
            chain,
            answer,
        }
    }

    /// An agent's buffers, of which some have a wrong length once in six times; none is
    /// longer than the longest that is sent.
    fn lend(&mut self, buffers: &mut [&mut Vec<u8>]) {
        if self.random.percent(17) {
            spoil_lengths(&mut self.random, buffers);
        }
        for bytes in buffers {
            bytes.truncate(MOST_LENT_BYTES);
        }
    }

    pub fn hidden(&mut self, world: &World, rows: usize) -> Call {
        let rows = self.nested_rows(world, rows);
        Call::Hidden {
            table: self.lent(rows),
        }
    }

    /// A buffer that is exact, longer, or sometimes too short.
    fn buffer(&mut self, rows: usize) -> Vec<u32> {
        let words = match self.random.below(12) {
            0..=5 => rows,
            6..=9 => rows + self.random.within(1, 5),
            10 => rows.saturating_sub(1),
            _ => self.random.within(0, rows),
        };
        self.random.words(words)
    }
}
