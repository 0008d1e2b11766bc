//! The numbers of a text's faults.

pub const NO_ITEM: u32 = 1;
pub const NO_OPERATOR_NAME: u32 = 2;
pub const NO_TABLE: u32 = 3;
/// The headings of a table's columns and lines, which are allow, deny and reserve.
pub const NO_HEADING: [u32; 3] = [4, 5, 6];
pub const NO_CELL: u32 = 7;
pub const NO_LAST_CELL: u32 = 8;
pub const NO_TABLE_END: u32 = 9;
pub const NO_NODE_NAME: u32 = 10;
pub const NO_NODE_START: u32 = 11;
pub const NO_RULE: u32 = 12;
pub const NO_CHILD: u32 = 13;
pub const NO_ACTION: u32 = 14;
pub const NO_RATE: u32 = 15;
pub const NO_UNIT: u32 = 16;
pub const NO_MATCH: u32 = 17;
pub const NO_PORT: u32 = 18;
pub const NO_PROTOCOL: u32 = 19;
pub const NO_SIDE: u32 = 20;
pub const WORDS_BEHIND: u32 = 21;
pub const NAME_TWICE: u32 = 22;
pub const NO_SUCH_OPERATOR: u32 = 23;
pub const HOST_BITS: u32 = 24;
pub const RATE_BEYOND: u32 = 25;
pub const MORE_OPERATORS: u32 = 26;
pub const MORE_RULES: u32 = 27;
pub const MORE_NODES: u32 = 28;
pub const TOO_DEEP: u32 = 29;
pub const NODES_OPEN: u32 = 30;

/// The last number; all from 1 on are given.
pub const FAULTS: usize = 30;
