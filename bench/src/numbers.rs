//! The numbers of refusals.

pub const ENDED: u32 = 1;
pub const COUNT: u32 = 2;
pub const CELL: u32 = 3;
pub const MATCH: u32 = 4;
pub const ACTION: u32 = 5;
pub const NODE: u32 = 6;
pub const BEHIND: u32 = 7;
pub const TREE: u32 = 8;
pub const SUM: u32 = 9;
pub const LAW: u32 = 10;
pub const PACKET: u32 = 11;
pub const ROOM: u32 = 12;
pub const SCRATCH: u32 = 13;
pub const TABLE: u32 = 15;
pub const ROW: u32 = 16;
pub const BUFFER: u32 = 17;
pub const CAPTURE: u32 = 19;
pub const ANSWERS: u32 = 20;
