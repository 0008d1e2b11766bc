//! Cases: one call each, from right and damaged policies, tables and packets.

use crate::calls::{to_bytes, Call, MOST_INPUT_BYTES, WORD_BYTES};
use crate::damage::{damaged, spoil_packet};
use crate::model::capture::MOST_PACKETS;
use crate::model::edition::{DEEPEST, MOST_ATOMS, MOST_NODES, MOST_OPERATORS, NEWEST, ROW_WORDS};
use crate::model::file::Policy;
use crate::model::listing::{MOST_BYTES, ROOM};
use crate::model::matches::{Match, Prefix};
use crate::model::rows::{compile, Row, MOST_ROWS};
use crate::policies::{Draft, Size};
use crate::random::Random;
use crate::stock::Stock;
use crate::world::World;

/// The longest file that is sent; there is a little room behind a right one.
const MOST_FILE_WORDS: usize = MOST_INPUT_BYTES / WORD_BYTES;

/// Kinds of cases at large sizes.
pub const BIG_KINDS: usize = 19;

pub struct Maker<'a> {
    pub random: Random,
    pub stock: &'a Stock,
}

impl Maker<'_> {
    pub fn small(&mut self) -> Call {
        let world = World::tiny(&mut self.random);
        let size = Size::small(&mut self.random);
        match self.random.below(124) {
            0..=25 => Call::Read {
                file: self.file(&world, size, 60),
            },
            26..=39 => self.action(&world, size),
            40..=56 => self.compile(&world, size),
            57..=67 => {
                let rows = self.random.within(0, 12);
                self.scan(&world, rows)
            }
            68..=79 => {
                let rows = self.random.within(0, 24);
                self.number(&world, rows)
            }
            80..=90 => self.listing(&world, size),
            91..=99 => {
                let rows = self.random.within(0, 24);
                self.hidden(&world, rows)
            }
            100..=109 => {
                let rows = self.random.within(0, 12);
                let packets = self.random.within(0, 9);
                self.capture(&world, rows, packets)
            }
            110..=116 => {
                let rows = self.random.within(0, 12);
                self.agent_scan(&world, rows)
            }
            _ => {
                let rows = self.random.within(0, 24);
                self.agent_number(&world, rows)
            }
        }
    }

    /// A case at a large size; the kinds go round.
    pub fn big(&mut self, kind: usize) -> Call {
        let wide = World::wide(&mut self.random);
        let tiny = World::tiny(&mut self.random);
        let big = Size::big(&mut self.random);
        let middling = Size::middling(&mut self.random);
        match kind % BIG_KINDS {
            0 => self.limit_read(&wide),
            1 => self.action(&wide, big),
            2 => self.action(&tiny, big),
            3 => self.compile_in_large_room(&tiny, middling),
            4 => self.compile_in_large_room(&wide, big),
            5 => self.compile_to_the_edge(),
            6 => {
                let near = [MOST_ROWS - 1, MOST_ROWS, MOST_ROWS, MOST_ROWS + 1];
                let rows = self.random.pick(&near);
                self.scan(&wide, rows)
            }
            7 => {
                let near = [1_000, MOST_ROWS - 1, MOST_ROWS, MOST_ROWS + 1];
                let rows = self.random.pick(&near);
                self.number(&wide, rows)
            }
            8 => {
                let rows = self.random.pick(&[300, MOST_ROWS]);
                self.number(&tiny, rows)
            }
            9 => {
                let near = [300, 1_000, MOST_ROWS - 1, MOST_ROWS, MOST_ROWS + 1];
                let rows = self.random.pick(&near);
                self.hidden(&wide, rows)
            }
            10 => {
                let rows = self.random.pick(&[300, MOST_ROWS, MOST_ROWS + 1]);
                self.hidden(&tiny, rows)
            }
            11 => self.listing(&wide, big),
            12 => self.listing(&tiny, middling),
            13 => self.listing_to_the_edge(),
            14 => self.long_listing(&wide),
            15 => {
                let [under, most, over] = [MOST_PACKETS - 1, MOST_PACKETS, MOST_PACKETS + 1];
                let packets = self.random.pick(&[under, most, most, most, over]);
                let rows = self.random.pick(&[0, 1, 12, 60]);
                self.capture(&tiny, rows, packets)
            }
            16 => {
                let near = [MOST_ROWS - 1, MOST_ROWS, MOST_ROWS, MOST_ROWS + 1];
                let rows = self.random.pick(&near);
                let packets = match self.random.below(8) {
                    0 => MOST_PACKETS,
                    _ => self.random.within(0, 40),
                };
                self.capture(&wide, rows, packets)
            }
            17 => {
                let rows = self.random.pick(&[MOST_ROWS, MOST_ROWS + 1]);
                self.agent_scan(&wide, rows)
            }
            _ => {
                let rows = self.random.pick(&[300, 300, 300, MOST_ROWS, MOST_ROWS + 1]);
                self.agent_number(&wide, rows)
            }
        }
    }

    pub fn draft(&mut self, world: &World, size: Size) -> Draft {
        Draft::random(&mut self.random, self.stock, world, size)
    }

    /// A file that is right with this chance in percent.
    fn file(&mut self, world: &World, size: Size, right: usize) -> Vec<u32> {
        let draft = self.draft(world, size);
        if self.random.percent(right) {
            return draft.words();
        }
        let mut words = damaged(&mut self.random, self.stock, world, &draft);
        words.truncate(MOST_FILE_WORDS);
        words
    }

    pub fn packet(&mut self, world: &World, right: usize) -> Vec<u32> {
        let packet = world.packet(&mut self.random);
        if self.random.percent(right) {
            packet.words(NEWEST)
        } else {
            spoil_packet(&mut self.random, &packet)
        }
    }

    fn action(&mut self, world: &World, size: Size) -> Call {
        Call::Action {
            file: self.file(world, size, 88),
            packet: self.packet(world, 88),
        }
    }

    fn compile(&mut self, world: &World, size: Size) -> Call {
        let file = self.file(world, size, 92);
        let table = self.table_words(&file);
        let scratch = self.scratch_words(table);
        self.compile_with(file, table, scratch)
    }

    fn compile_with(&mut self, file: Vec<u32>, table: usize, scratch: usize) -> Call {
        Call::Compile {
            file,
            table: self.random.words(table),
            scratch: self.random.words(scratch),
        }
    }

    /// Words for a table: around what the file's rows need, or not.
    fn table_words(&mut self, file: &[u32]) -> usize {
        let policy = Policy::read(file, NEWEST).ok();
        let rows = policy.and_then(|policy| compile(&policy.tree(), 200).ok());
        let needed = ROW_WORDS * rows.map_or(20, |rows| rows.len());
        match self.random.below(8) {
            0..=2 => needed,
            3 => needed + self.random.within(1, ROW_WORDS - 1),
            4 => needed.saturating_sub(self.random.within(1, ROW_WORDS)),
            5 => needed + ROW_WORDS * self.random.within(1, 5),
            6 => self.random.within(0, ROW_WORDS),
            _ => self.random.within(0, 2 * needed + 30),
        }
    }

    fn scratch_words(&mut self, table: usize) -> usize {
        let needed = scratch_needed(table);
        match self.random.below(8) {
            0..=3 => needed,
            4 => needed + self.random.within(1, ROW_WORDS + 1),
            5 => needed.saturating_sub(1),
            6 => table,
            _ => self.random.within(0, needed),
        }
    }

    fn compile_in_large_room(&mut self, world: &World, size: Size) -> Call {
        let file = self.file(world, size, 95);
        let near = [ROOM, MOST_ROWS - 1, MOST_ROWS, MOST_ROWS, MOST_ROWS + 1];
        let table = ROW_WORDS * self.random.pick(&near) + self.random.below(ROW_WORDS);
        let scratch = self.scratch_words(table);
        self.compile_with(file, table, scratch)
    }

    /// A large room that is used to the last row, or one row too small.
    fn compile_to_the_edge(&mut self) -> Call {
        let [under, most, over] = [MOST_ROWS - 1, MOST_ROWS, MOST_ROWS + 1];
        let rows = self.random.pick(&[255, ROOM, under - 1, under, most, over]);
        let file = self.draft_of_rows(rows).words();
        let table = ROW_WORDS * (rows - self.random.below(2)) + self.random.below(ROW_WORDS);
        self.compile_with(file, table, scratch_needed(table))
    }

    /// A listing around its room.
    fn listing_to_the_edge(&mut self) -> Call {
        let rows = self.random.pick(&[ROOM - 1, ROOM, ROOM + 1]);
        let bytes = to_bytes(&self.draft_of_rows(rows).words());
        Call::Listing { bytes }
    }

    /// A policy of exactly so many rows: k atoms of one in-port make 2^k - 1
    /// rows in whatever tree, and those of different in-ports have nothing in common.
    fn draft_of_rows(&mut self, rows: usize) -> Draft {
        let world = World::open(&mut self.random);
        let mut in_ports = Vec::new();
        let mut left = rows;
        for in_port in 0.. {
            let atoms = (left + 1).ilog2();
            if atoms == 0 {
                break;
            }
            in_ports.extend(vec![in_port; atoms as usize]);
            left -= (1 << atoms) - 1;
        }
        let size = Size {
            operators: 2,
            atoms: in_ports.len(),
            nodes: self.random.pick(&[1, 2, 9]),
            deepest: DEEPEST,
        };
        let mut draft = self.draft(&world, size);
        for (atom, in_port) in draft.atoms.iter_mut().zip(in_ports) {
            let matching = Match {
                in_port: Prefix::exactly(in_port),
                ..Match::default()
            };
            *atom = Row {
                matching,
                ..world.row(&mut self.random)
            }
            .raw();
        }
        draft
    }

    fn listing(&mut self, world: &World, size: Size) -> Call {
        let mut bytes = to_bytes(&self.file(world, size, 75));
        match self.random.below(40) {
            0 => bytes.extend(vec![0; self.random.within(1, 3)]),
            1 => bytes.truncate(self.random.within(0, bytes.len())),
            2 => drop(bytes.pop()),
            3 if self.random.percent(20) => bytes.clear(),
            _ => {}
        }
        bytes.truncate(MOST_INPUT_BYTES);
        Call::Listing { bytes }
    }

    /// The longest file with nothing, a little, or more than the most behind it.
    fn long_listing(&mut self, world: &World) -> Call {
        let mut bytes = to_bytes(&self.draft(world, Size::LARGEST).words());
        assert_eq!(bytes.len(), MOST_BYTES);
        let most = MOST_INPUT_BYTES - MOST_BYTES;
        let length = MOST_BYTES
            + self
                .random
                .pick(&[0, 0, 1, WORD_BYTES, 2 * WORD_BYTES, most]);
        bytes.resize(length, 0);
        if self.random.percent(20) {
            bytes.truncate(MOST_BYTES - self.random.within(1, 5));
        }
        Call::Listing { bytes }
    }

    /// One count at its limit or just over it, with all its records there.
    fn limit_read(&mut self, world: &World) -> Call {
        let mut size = Size::LARGEST;
        match self.random.below(6) {
            0 => size.operators = MOST_OPERATORS + 1,
            1 => size.atoms = MOST_ATOMS + 1,
            2 => size.nodes = MOST_NODES + 1,
            _ => {}
        }
        let mut file = self.file(world, size, 70);
        if self.random.percent(20) {
            let extra = self.random.within(1, 100);
            file.extend(self.random.words(extra));
        }
        file.truncate(MOST_FILE_WORDS);
        Call::Read { file }
    }
}

/// The scratch that a compile needs for a table of so many words.
fn scratch_needed(table: usize) -> usize {
    ROW_WORDS * (table / ROW_WORDS).min(MOST_ROWS)
}
