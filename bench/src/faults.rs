//! The faults of a text in the notation.

#[derive(Clone, Copy, Debug, PartialEq)]
pub struct Fault {
    pub at: usize,
    pub reason: Reason,
}

/// What was wanted, or what is wrong; some name another place.
#[derive(Clone, Copy, Debug, PartialEq)]
pub enum Reason {
    Item,
    OperatorName,
    Table,
    Heading(u32),
    Cell,
    LastCell,
    TableEnd,
    NodeName,
    NodeStart,
    Rule,
    Child,
    Action,
    Rate,
    Unit,
    Match,
    Port,
    Protocol,
    Side,
    Nothing,
    Twice(usize),
    Unknown(Option<usize>),
    HostBits(u32, u32),
    RateBeyond,
    MoreOperators,
    MoreRules,
    MoreNodes,
    TooDeep,
    Unclosed(usize),
}

impl Reason {
    /// Its number in docs/NOTATION.md.
    pub fn number(self) -> u32 {
        match self {
            Reason::Item => 1,
            Reason::OperatorName => 2,
            Reason::Table => 3,
            Reason::Heading(kind) => 3 + kind,
            Reason::Cell => 7,
            Reason::LastCell => 8,
            Reason::TableEnd => 9,
            Reason::NodeName => 10,
            Reason::NodeStart => 11,
            Reason::Rule => 12,
            Reason::Child => 13,
            Reason::Action => 14,
            Reason::Rate => 15,
            Reason::Unit => 16,
            Reason::Match => 17,
            Reason::Port => 18,
            Reason::Protocol => 19,
            Reason::Side => 20,
            Reason::Nothing => 21,
            Reason::Twice(_) => 22,
            Reason::Unknown(_) => 23,
            Reason::HostBits(..) => 24,
            Reason::RateBeyond => 25,
            Reason::MoreOperators => 26,
            Reason::MoreRules => 27,
            Reason::MoreNodes => 28,
            Reason::TooDeep => 29,
            Reason::Unclosed(_) => 30,
        }
    }
}
