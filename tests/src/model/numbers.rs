//! The numbers of refusals.

pub const ENDS_EARLY: u32 = 1;
pub const COUNT_BEYOND: u32 = 2;
pub const WRONG_CELL: u32 = 3;
pub const WRONG_MATCH: u32 = 4;
pub const WRONG_ACTION: u32 = 5;
pub const WRONG_NODE: u32 = 6;
pub const WORDS_AFTER: u32 = 7;
pub const NOT_ONE_TREE: u32 = 8;
pub const ATOMS_LEFT: u32 = 9;
pub const BROKEN_LAW: u32 = 10;
pub const WRONG_PACKET: u32 = 11;
pub const MORE_ROWS: u32 = 12;
pub const SHORT_SCRATCH: u32 = 13;
pub const NOT_A_TABLE: u32 = 15;
pub const WRONG_ROW: u32 = 16;
pub const SHORT_BUFFER: u32 = 17;
pub const WRONG_BYTES: u32 = 18;
pub const WRONG_CAPTURE: u32 = 19;
pub const SHORT_ANSWERS: u32 = 20;
pub const WRONG_LENGTH: u32 = 21;

/// All of them, in order.
pub const REFUSALS: [u32; 20] = [
    ENDS_EARLY,
    COUNT_BEYOND,
    WRONG_CELL,
    WRONG_MATCH,
    WRONG_ACTION,
    WRONG_NODE,
    WORDS_AFTER,
    NOT_ONE_TREE,
    ATOMS_LEFT,
    BROKEN_LAW,
    WRONG_PACKET,
    MORE_ROWS,
    SHORT_SCRATCH,
    NOT_A_TABLE,
    WRONG_ROW,
    SHORT_BUFFER,
    WRONG_BYTES,
    WRONG_CAPTURE,
    SHORT_ANSWERS,
    WRONG_LENGTH,
];
