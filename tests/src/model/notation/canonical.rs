//! The canonical text of a policy, and the policy that the words of a file give.

use super::reader::{CELLS, KINDS, PARENT, SIBLING};
use super::rules::{PROTOCOLS, THOUSAND, UNITS};
use super::values::address_text;
use super::{Written, WrittenNode, WrittenOperator, WrittenRule};
use crate::model::action::{ALLOW, DENY, DONT_CARE};
use crate::model::edition::{COUNT_WORDS, NEWEST};
use crate::model::fields::KINDS as FIELDS;
use crate::model::file::Policy;
use crate::model::matches::WORD_BITS;
use crate::model::record::{Node, RawRow};
use crate::model::Refusal;

/// Blanks that a depth adds, and the width of a table's column.
const INDENT: usize = 4;
const COLUMN: usize = 10;

/// The canonical text of a file, if it is accepted.
pub fn canonical(file: &[u32]) -> Result<Vec<u8>, Refusal> {
    Ok(from_words(file)?.text())
}

/// The policy of a file, with names made up.
fn from_words(file: &[u32]) -> Result<Written, Refusal> {
    let policy = Policy::read(file, NEWEST)?;
    let (operators, atoms) = (policy.operators.len(), policy.atoms.len());
    let operators_at = NEWEST.operator_count_at() + COUNT_WORDS;
    let atoms_at = NEWEST.atom_count_at(operators) + COUNT_WORDS;
    let cells = file[operators_at..].chunks(NEWEST.operator_words());
    let cells = cells.take(operators).enumerate();
    let words = file[atoms_at..].chunks(NEWEST.atom_words());
    let rule = |(index, words): (usize, &[u32])| WrittenRule {
        label: format!("rule-{index}").into_bytes(),
        place: 0,
        atom: RawRow::from_words(words, NEWEST),
    };
    Ok(Written {
        operators: cells.map(|(index, cells)| operator(index, cells)).collect(),
        nodes: nodes(&policy.nodes, words.take(atoms).enumerate().map(rule)),
    })
}

/// The supplied operators have their names where they stand first.
fn operator(index: usize, cells: &[u32]) -> WrittenOperator {
    let supplied = [(SIBLING, NEWEST.sibling()), (PARENT, NEWEST.parent())];
    WrittenOperator {
        name: match supplied.get(index) {
            Some((name, of)) if of == cells => name.as_bytes().to_vec(),
            _ => format!("operator-{index}").into_bytes(),
        },
        place: 0,
        cells: cells.to_vec(),
    }
}

/// The nodes of one tree, each with its rules.
fn nodes(nodes: &[Node], mut rules: impl Iterator<Item = WrittenRule>) -> Vec<WrittenNode> {
    // For each node from the root down to the last one, the children still to come.
    let mut waiting: Vec<u32> = Vec::new();
    let written = |(index, node): (usize, &Node)| {
        while waiting.last() == Some(&0) {
            waiting.pop();
        }
        if let Some(children) = waiting.last_mut() {
            *children -= 1;
        }
        waiting.push(node.children);
        WrittenNode {
            name: format!("node-{index}").into_bytes(),
            place: 0,
            depth: waiting.len(),
            inner: node.inner as usize,
            sibling: node.sibling as usize,
            parent: node.parent as usize,
            rules: rules.by_ref().take(node.atoms as usize).collect(),
        }
    };
    nodes.iter().enumerate().map(written).collect()
}

impl Written {
    /// The canonical text.
    pub fn text(&self) -> Vec<u8> {
        let mut lines: Vec<String> = Vec::new();
        for operator in &self.operators {
            lines.extend(operator.lines());
        }
        lines.push(String::new());
        let mut before = 0;
        for (index, node) in self.nodes.iter().enumerate() {
            // The nodes end that are no deeper.
            for depth in (node.depth..=before).rev() {
                lines.push(indented(depth - 1, "}"));
            }
            let first_in_parent = before < node.depth && self.rules_before(index) == 0;
            if !first_in_parent {
                lines.push(String::new());
            }
            lines.push(indented(node.depth - 1, &self.line(node)));
            let rules = node.rules.iter();
            lines.extend(rules.map(|rule| indented(node.depth, &rule.line())));
            before = node.depth;
        }
        let ends = (1..=before).rev();
        lines.extend(ends.map(|depth| indented(depth - 1, "}")));
        let ended = lines.iter().map(|line| format!("{line}\n"));
        ended.collect::<String>().into_bytes()
    }

    /// How many rules the node before this one has; none before the root.
    fn rules_before(&self, index: usize) -> usize {
        let before = index.checked_sub(1).map(|before| &self.nodes[before]);
        before.map_or(0, |node| node.rules.len())
    }

    /// A node's first line.
    fn line(&self, node: &WrittenNode) -> String {
        let mut line = format!("node {}", text(&node.name));
        for (word, index, unsaid) in [
            ("inside", node.inner, SIBLING),
            ("between", node.sibling, SIBLING),
            ("below", node.parent, PARENT),
        ] {
            let name = text(&self.operators[index].name);
            if name != unsaid {
                line += &format!(" {word} {name}");
            }
        }
        line + " {"
    }
}

impl WrittenOperator {
    fn lines(&self) -> Vec<String> {
        let name = text(&self.name);
        if name == SIBLING || name == PARENT {
            return vec![format!("operator {name}")];
        }
        let mut lines = vec![format!("operator {name} {{"), columns("", &KINDS)];
        for (kind, codes) in KINDS.iter().zip(self.cells.chunks(KINDS.len())) {
            let cells: Vec<&str> = codes.iter().map(|code| CELLS[*code as usize - 1]).collect();
            lines.push(columns(kind, &cells));
        }
        lines.push("}".to_string());
        lines
    }
}

impl WrittenRule {
    fn line(&self) -> String {
        let mut parts = vec![format!("{}:", text(&self.label))];
        let atom = &self.atom;
        match atom.kind {
            DONT_CARE => parts.push("none".into()),
            ALLOW => parts.push("allow".into()),
            DENY => parts.push("deny".into()),
            _ => parts.push(rate(atom.rate)),
        }
        let said = said(atom);
        if *atom == atom.emptied() {
            parts.push("never".into());
        } else if said.is_empty() {
            parts.push("any".into());
        }
        parts.extend(said);
        parts.join(" ")
    }
}

/// A rate in the largest unit in which it is a whole number.
fn rate(rate: u32) -> String {
    let in_unit = |unit: usize| u64::from(rate) / THOUSAND.pow(unit as u32);
    let whole = |unit: &usize| u64::from(rate).is_multiple_of(THOUSAND.pow(*unit as u32));
    let unit = (0..UNITS.len()).rev().find(whole).unwrap_or(0);
    format!("reserve {} {}", in_unit(unit), UNITS[unit])
}

/// The parts of a match that are said.
fn said(atom: &RawRow) -> Vec<String> {
    let values = atom.values;
    let number = |flag: u32, value: u32| (atom.flags & flag != 0).then_some(value);
    let mut parts = Vec::new();
    if let Some(port) = number(FIELDS.in_port.flag(), values.in_port) {
        parts.push(format!("in {port}"));
    }
    if let Some(protocol) = number(FIELDS.protocol.flag(), values.protocol) {
        let named = PROTOCOLS.iter().find(|(_, of)| *of == protocol);
        parts.push(named.map_or(format!("protocol {protocol}"), |(name, _)| name.to_string()));
    }
    let port = number(FIELDS.source_port.flag(), values.source_port);
    parts.extend(side("from", values.source, atom.source_length, port));
    let port = number(FIELDS.destination_port.flag(), values.destination_port);
    parts.extend(side(
        "to",
        values.destination,
        atom.destination_length,
        port,
    ));
    parts
}

fn side(word: &str, address: u32, length: u32, port: Option<u32>) -> Option<String> {
    let prefix = match length {
        0 => String::new(),
        WORD_BITS => format!(" {}", address_text(address)),
        _ => format!(" {}/{length}", address_text(address)),
    };
    let port = port.map_or(String::new(), |port| format!(" port {port}"));
    let says = prefix + &port;
    (!says.is_empty()).then(|| format!("{word}{says}"))
}

/// A line of a table, without blanks at its end.
fn columns(heading: &str, cells: &[&str]) -> String {
    let mut line = format!("{:INDENT$}{heading:COLUMN$}", "");
    for cell in cells {
        line += &format!("{cell:COLUMN$}");
    }
    line.trim_end().to_string()
}

fn indented(depth: usize, line: &str) -> String {
    " ".repeat(INDENT * depth) + line
}

/// A name's bytes are those of letters, digits, `-` and `_`.
fn text(name: &[u8]) -> String {
    String::from_utf8_lossy(name).into_owned()
}
