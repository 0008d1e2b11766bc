//! Writing a policy in the notation: the words of a text that gives just the words of
//! a drawn file. What may be said or not is drawn.

use super::names::Names;
use super::pieces::{Pieces, Role};
use crate::model::action::{ALLOW, DENY, DONT_CARE};
use crate::model::fields::KINDS as FIELDS;
use crate::model::matches::WORD_BITS;
use crate::model::notation::reader::{CELLS, KINDS, PARENT, SIBLING};
use crate::model::notation::rules::{PROTOCOLS, UNITS};
use crate::model::notation::values::address_text;
use crate::model::record::{Node, RawRow};
use crate::policies::Draft;
use crate::random::Random;

pub struct Writer<'a> {
    random: &'a mut Random,
    draft: &'a Draft,
    unsaid: usize,
    operators: Vec<Vec<u8>>,
    names: Names,
    pieces: Pieces,
    atoms: std::slice::Iter<'a, RawRow>,
    next: usize,
}

/// The words of a text for this draft, whose nodes must be one tree.
pub fn written(random: &mut Random, draft: &Draft) -> Pieces {
    let unsaid = random.pick(&[0, 50, 100]);
    let operators = operator_names(random, draft);
    let mut writer = Writer {
        random,
        draft,
        unsaid,
        operators,
        names: Names::default(),
        pieces: Pieces::default(),
        atoms: draft.atoms.iter(),
        next: 0,
    };
    writer.operators();
    writer.subtree(Role::Root);
    writer.pieces
}

/// Names for the operators: the supplied ones have theirs where the cells are theirs.
fn operator_names(random: &mut Random, draft: &Draft) -> Vec<Vec<u8>> {
    let mut names = Names::without(&[SIBLING, PARENT]);
    let mut left = vec![
        (draft.edition.sibling(), SIBLING),
        (draft.edition.parent(), PARENT),
    ];
    let mut name = |cells: &Vec<u32>| {
        let supplied = left.iter().position(|(of, _)| of == cells);
        match supplied.filter(|_| random.percent(85)) {
            Some(place) => left.remove(place).1.as_bytes().to_vec(),
            None => names.fresh(random),
        }
    };
    draft.operators.iter().map(&mut name).collect()
}

impl Writer<'_> {
    fn operators(&mut self) {
        let silent = if self.random.percent(self.unsaid) {
            self.silent()
        } else {
            0
        };
        for index in 0..self.operators.len() - silent {
            self.pieces.put(Role::Item, "operator");
            self.pieces
                .put_bytes(Role::OperatorName, &self.operators[index]);
            if !is_supplied(&self.operators[index]) {
                self.table(&self.draft.operators[index]);
            }
        }
    }

    /// How many of the last operators need no item: the supplied ones that nodes use
    /// first in the order in which they stand.
    fn silent(&self) -> usize {
        let uses = self.draft.nodes.iter();
        let uses = uses.flat_map(|node| [node.inner, node.sibling, node.parent]);
        let mut order: Vec<usize> = Vec::new();
        for index in uses {
            if !order.contains(&(index as usize)) {
                order.push(index as usize);
            }
        }
        let last = |count: usize| {
            let from = self.operators.len() - count;
            let used = order.iter().copied().filter(|index| *index >= from);
            let supplied = self.operators[from..].iter().all(|name| is_supplied(name));
            supplied && used.eq(from..self.operators.len())
        };
        let counts = (1..=self.operators.len().min(2)).rev();
        counts.into_iter().find(|count| last(*count)).unwrap_or(0)
    }

    fn table(&mut self, cells: &[u32]) {
        self.pieces.put(Role::TableStart, "{");
        for kind in KINDS {
            self.pieces.put(Role::Heading, kind);
        }
        for (line, kind) in cells.chunks(KINDS.len()).zip(KINDS) {
            self.pieces.put(Role::Heading, kind);
            for code in line {
                self.pieces.put(Role::Cell, CELLS[*code as usize - 1]);
            }
        }
        let last = self.pieces.0.last_mut();
        last.expect("a table has cells").role = Role::LastCell;
        self.pieces.put(Role::TableEnd, "}");
    }

    /// The next node of the draft with all that is below it.
    fn subtree(&mut self, role: Role) {
        let node = self.draft.nodes[self.next];
        self.next += 1;
        self.pieces.put(role, "node");
        let name = self.names.fresh(self.random);
        self.pieces.put_bytes(Role::NodeName, &name);
        self.clauses(&node);
        self.pieces.put(Role::NodeStart, "{");
        let mut labels = Names::default();
        for _ in 0..node.atoms {
            let label = labels.fresh(self.random);
            self.rule(&label);
        }
        for _ in 0..node.children {
            self.subtree(Role::Node);
        }
        self.pieces.put(Role::NodeEnd, "}");
    }

    fn clauses(&mut self, node: &Node) {
        let said = [
            ("inside", node.inner, SIBLING),
            ("between", node.sibling, SIBLING),
            ("below", node.parent, PARENT),
        ];
        for (clause, index, unsaid) in said {
            let name = &self.operators[index as usize];
            if name != unsaid.as_bytes() || !self.random.percent(self.unsaid) {
                self.pieces.put(Role::Clause, clause);
                self.pieces.put_bytes(Role::UsedOperator, name);
            }
        }
    }

    fn rule(&mut self, label: &[u8]) {
        let atom = self.atoms.next().expect("an atom for each that is counted");
        self.pieces.put_bytes(Role::Label, label);
        self.pieces.put(Role::Colon, ":");
        self.action(atom);
        let start = self.pieces.0.len();
        if *atom == atom.emptied() {
            self.pieces.put(Role::Match, "never");
            return;
        }
        self.numbers(atom);
        self.sides(atom);
        match self.pieces.0.get_mut(start) {
            Some(first) => first.role = Role::Match,
            None => self.pieces.put(Role::Match, "any"),
        }
    }

    fn action(&mut self, atom: &RawRow) {
        let word = match atom.kind {
            DONT_CARE => "none",
            ALLOW => "allow",
            DENY => "deny",
            _ => "reserve",
        };
        self.pieces.put(Role::Action, word);
        if word == "reserve" {
            let whole = |unit: &u32| atom.rate.is_multiple_of(1_000_u32.pow(*unit));
            let units: Vec<u32> = (0..UNITS.len() as u32).filter(whole).collect();
            let unit = self.random.pick(&units);
            let number = atom.rate / 1_000_u32.pow(unit);
            self.pieces.put(Role::Rate, &number.to_string());
            self.pieces.put(Role::Unit, UNITS[unit as usize]);
        }
    }

    fn numbers(&mut self, atom: &RawRow) {
        if atom.flags & FIELDS.in_port.flag() != 0 {
            self.pieces.put(Role::Part, "in");
            self.pieces
                .put(Role::Port, &atom.values.in_port.to_string());
        }
        if atom.flags & FIELDS.protocol.flag() == 0 {
            return;
        }
        let protocol = atom.values.protocol;
        let named = PROTOCOLS.iter().find(|(_, number)| *number == protocol);
        match named.filter(|_| self.random.percent(60)) {
            Some((name, _)) => self.pieces.put(Role::Part, name),
            None => {
                self.pieces.put(Role::Part, "protocol");
                self.pieces.put(Role::Protocol, &protocol.to_string());
            }
        }
    }

    fn sides(&mut self, atom: &RawRow) {
        let values = atom.values;
        let port = |flag: u32, port: u32| (atom.flags & flag != 0).then_some(port);
        let source_port = port(FIELDS.source_port.flag(), values.source_port);
        let port = port(FIELDS.destination_port.flag(), values.destination_port);
        self.side("from", values.source, atom.source_length, source_port);
        self.side("to", values.destination, atom.destination_length, port);
    }

    fn side(&mut self, word: &str, address: u32, length: u32, port: Option<u32>) {
        let bare = length == 0 && !self.random.percent(15);
        if bare && port.is_none() {
            return;
        }
        self.pieces.put(Role::Part, word);
        if !bare {
            let mut prefix = address_text(address);
            if length != WORD_BITS || !self.random.percent(70) {
                prefix += &format!("/{length}");
            }
            self.pieces.put(Role::Prefix, &prefix);
        }
        if let Some(port) = port {
            self.pieces.put(Role::Part, "port");
            self.pieces.put(Role::Port, &port.to_string());
        }
    }
}

fn is_supplied(name: &[u8]) -> bool {
    [SIBLING, PARENT].iter().any(|one| one.as_bytes() == name)
}
