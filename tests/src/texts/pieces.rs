//! A text before it is laid out: its words, each with what it is there for.

/// What stands at a place of a text, and so what is wrong if another word does.
#[derive(Clone, Copy, PartialEq, Eq, Debug)]
pub enum Role {
    /// `operator`, before the root.
    Item,
    OperatorName,
    TableStart,
    Heading,
    Cell,
    LastCell,
    TableEnd,
    /// `node` of the root, and of another.
    Root,
    Node,
    NodeName,
    /// `inside`, `between` and `below`, and the operator behind it.
    Clause,
    UsedOperator,
    NodeStart,
    NodeEnd,
    Label,
    Colon,
    Action,
    Rate,
    Unit,
    /// The first word of a match.
    Match,
    /// A word that says what comes next, inside of a match.
    Part,
    Port,
    Protocol,
    Prefix,
}

/// All of them.
pub const ROLES: [Role; 24] = [
    Role::Item,
    Role::OperatorName,
    Role::TableStart,
    Role::Heading,
    Role::Cell,
    Role::LastCell,
    Role::TableEnd,
    Role::Root,
    Role::Node,
    Role::NodeName,
    Role::Clause,
    Role::UsedOperator,
    Role::NodeStart,
    Role::NodeEnd,
    Role::Label,
    Role::Colon,
    Role::Action,
    Role::Rate,
    Role::Unit,
    Role::Match,
    Role::Part,
    Role::Port,
    Role::Protocol,
    Role::Prefix,
];

#[derive(Clone, PartialEq, Eq, Debug)]
pub struct Piece {
    pub word: Vec<u8>,
    pub role: Role,
}

#[derive(Clone, Default, Debug)]
pub struct Pieces(pub Vec<Piece>);

impl Pieces {
    pub fn put(&mut self, role: Role, word: &str) {
        self.put_bytes(role, word.as_bytes());
    }

    pub fn put_bytes(&mut self, role: Role, word: &[u8]) {
        let word = word.to_vec();
        self.0.push(Piece { word, role });
    }

    /// Where the words with this role stand.
    pub fn places(&self, role: Role) -> Vec<usize> {
        let all = 0..self.0.len();
        all.filter(|place| self.0[*place].role == role).collect()
    }
}
