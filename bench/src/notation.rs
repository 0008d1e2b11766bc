//! A hand-written reader of the notation (docs/NOTATION.md): the text is gone through once, and names are found by hash.

use crate::action::{self, ALLOW, CELLS, Cells, DENY, GMB, MOST_RATE};
use crate::faults::{Fault, Reason};
use crate::flow::{
    DESTINATION, DESTINATION_LENGTH, DESTINATION_PORT, EMPTY, FLAGS, IN_PORT, KIND, OF_DESTINATION_PORT, OF_IN_PORT,
    OF_PROTOCOL, OF_SOURCE_PORT, PORTS, PROTOCOL, PROTOCOLS, RATE, ROW_WORDS, Row, SOURCE, SOURCE_LENGTH, SOURCE_PORT,
    TCP, UDP,
};
use crate::names::Names;
use crate::policy::{
    CHILDREN, DEEPEST, HEADER, INNER, MOST_ATOMS, MOST_NODES, MOST_OPERATORS, NODE_WORDS, OWN, PARENT, SIBLING,
};
use crate::words::{BLANK, COMMENT, IN_WORD, MARK, class, differ_by_one, is_name, number, prefix};

/// What a text gives; all places are bytes of the text.
#[derive(Default)]
pub struct Policy {
    pub operators: Vec<Operator>,
    pub nodes: Vec<Node>,
}

pub struct Operator {
    pub name: Vec<u8>,
    pub at: usize,
    pub cells: Cells,
}

pub struct Node {
    pub name: Vec<u8>,
    pub at: usize,
    pub depth: usize,
    pub inner: usize,
    pub sibling: usize,
    pub parent: usize,
    pub children: usize,
    pub rules: Vec<Rule>,
}

pub struct Rule {
    pub label: Vec<u8>,
    pub at: usize,
    pub row: Row,
}

type Read<T> = Result<T, Fault>;

fn fault<T>(at: usize, reason: Reason) -> Read<T> {
    Err(Fault { at, reason })
}

/// The text, and the word that comes next: of no bytes at the end.
struct Reader<'a> {
    text: &'a [u8],
    word: &'a [u8],
    at: usize,
    policy: Policy,
    nodes: Names<'a>,
    labels: Names<'a>,
    rules: usize,
}

pub fn read(text: &[u8]) -> Result<Policy, Fault> {
    let mut reader = Reader {
        text,
        word: &[],
        at: 0,
        policy: Policy::default(),
        nodes: Names::default(),
        labels: Names::default(),
        rules: 0,
    };
    reader.advance();
    while reader.word != b"node" {
        reader.operator()?;
    }
    reader.tree()?;
    if reader.word.is_empty() {
        Ok(reader.policy)
    } else {
        reader.unwanted(Reason::Nothing)
    }
}

impl<'a> Reader<'a> {
    /// Goes on to the next word.
    fn advance(&mut self) {
        let text = self.text;
        let mut start = self.at + self.word.len();
        while let Some(&byte) = text.get(start) {
            match class(byte) {
                BLANK => start += 1,
                COMMENT => start += until(&text[start..], |byte| byte == b'\n'),
                _ => break,
            }
        }
        let rest = &text[start..];
        let length = match rest.first() {
            Some(&byte) if class(byte) == MARK => 1,
            _ => until(rest, |byte| class(byte) != IN_WORD),
        };
        (self.at, self.word) = (start, &rest[..length]);
    }

    fn unwanted<T>(&self, reason: Reason) -> Read<T> {
        fault(self.at, reason)
    }

    #[inline(always)]
    fn takes(&mut self, word: &[u8]) -> bool {
        let there = self.word == word;
        if there {
            self.advance();
        }
        there
    }

    fn want(&mut self, word: &[u8], reason: Reason) -> Read<()> {
        if self.takes(word) {
            Ok(())
        } else {
            self.unwanted(reason)
        }
    }

    /// What the next word says, which is taken.
    fn want_value<T>(&mut self, value: impl Fn(&[u8]) -> Option<T>, reason: Reason) -> Read<T> {
        let Some(value) = value(self.word) else {
            return self.unwanted(reason);
        };
        self.advance();
        Ok(value)
    }

    fn operator(&mut self) -> Read<()> {
        let item = self.at;
        self.want(b"operator", Reason::Item)?;
        if self.policy.operators.len() == MOST_OPERATORS as usize {
            return fault(item, Reason::MoreOperators);
        }
        let (name, at) = (self.word, self.at);
        if !is_name(name) {
            return self.unwanted(Reason::OperatorName);
        }
        if let Some(first) = self.policy.operators.iter().find(|operator| operator.name == name) {
            return self.unwanted(Reason::Twice(first.at));
        }
        self.advance();
        let cells = match supplied(name) {
            Some(cells) => cells,
            None => self.cells()?,
        };
        self.add_operator(name, at, cells);
        Ok(())
    }

    fn add_operator(&mut self, name: &[u8], at: usize, cells: Cells) {
        let name = name.to_vec();
        self.policy.operators.push(Operator { name, at, cells });
    }

    fn cells(&mut self) -> Read<Cells> {
        const HEADINGS: [(&[u8], u32); 3] = [(b"allow", ALLOW), (b"deny", DENY), (b"reserve", GMB)];
        self.want(b"{", Reason::Table)?;
        for (heading, kind) in HEADINGS {
            self.want(heading, Reason::Heading(kind))?;
        }
        let mut cells = [0; CELLS];
        for (place, cell) in cells.iter_mut().enumerate() {
            if place % HEADINGS.len() == 0 {
                let (heading, kind) = HEADINGS[place / HEADINGS.len()];
                self.want(heading, Reason::Heading(kind))?;
            }
            *cell = if place == CELLS - 1 {
                self.want_value(last_cell, Reason::LastCell)?
            } else {
                self.want_value(cell_code, Reason::Cell)?
            };
        }
        self.want(b"}", Reason::TableEnd)?;
        Ok(cells)
    }

    /// The root and all nodes in it.
    fn tree(&mut self) -> Read<()> {
        let mut open = [0; DEEPEST];
        let mut depth = 0;
        loop {
            if self.word == b"node" {
                let index = self.node(depth + 1)?;
                if depth > 0 {
                    self.policy.nodes[open[depth - 1]].children += 1;
                }
                open[depth] = index;
                depth += 1;
                self.rules(index)?;
            } else if self.takes(b"}") {
                depth -= 1;
                if depth == 0 {
                    return Ok(());
                }
            } else if self.word.is_empty() {
                return self.unwanted(Reason::Unclosed(self.policy.nodes[open[depth - 1]].at));
            } else {
                return self.unwanted(Reason::Child);
            }
        }
    }

    /// From `node` to `{`.
    fn node(&mut self, depth: usize) -> Read<usize> {
        let index = self.policy.nodes.len();
        if index == MOST_NODES as usize {
            return self.unwanted(Reason::MoreNodes);
        }
        self.advance();
        let (name, at) = (self.word, self.at);
        if !is_name(name) {
            return self.unwanted(Reason::NodeName);
        }
        if let Some(first) = self.nodes.insert(name, at) {
            return self.unwanted(Reason::Twice(first));
        }
        if depth > DEEPEST {
            return self.unwanted(Reason::TooDeep);
        }
        self.advance();
        let inner = self.operator_of(b"inside", b"sibling", at)?;
        let sibling = self.operator_of(b"between", b"sibling", at)?;
        let parent = self.operator_of(b"below", b"parent", at)?;
        self.want(b"{", Reason::NodeStart)?;
        self.policy.nodes.push(Node {
            name: name.to_vec(),
            at,
            depth,
            inner,
            sibling,
            parent,
            children: 0,
            rules: Vec::new(),
        });
        Ok(index)
    }

    /// The operator behind a word, or the one that is used where that is not said.
    fn operator_of(&mut self, word: &[u8], unsaid: &[u8], node: usize) -> Read<usize> {
        if !self.takes(word) {
            return self.named(unsaid, node);
        }
        let operator = self.named(self.word, self.at)?;
        self.advance();
        Ok(operator)
    }

    fn named(&mut self, name: &[u8], at: usize) -> Read<usize> {
        let operators = &self.policy.operators;
        if let Some(index) = operators.iter().position(|operator| operator.name == name) {
            return Ok(index);
        }
        let Some(cells) = supplied(name) else {
            let near = operators.iter().find(|operator| differ_by_one(&operator.name, name));
            return fault(at, Reason::Unknown(near.map(|operator| operator.at)));
        };
        let index = operators.len();
        if index == MOST_OPERATORS as usize {
            return fault(at, Reason::MoreOperators);
        }
        self.add_operator(name, at, cells);
        Ok(index)
    }

    /// The rules of a node, before its first child.
    fn rules(&mut self, node: usize) -> Read<()> {
        self.labels.clear();
        while !matches!(self.word, b"node" | b"}" | b"") {
            if self.rules == MOST_ATOMS as usize {
                return self.unwanted(Reason::MoreRules);
            }
            let rule = self.rule()?;
            self.policy.nodes[node].rules.push(rule);
            self.rules += 1;
        }
        Ok(())
    }

    fn rule(&mut self) -> Read<Rule> {
        let (label, at) = (self.word, self.at);
        if !is_name(label) {
            return self.unwanted(Reason::Rule);
        }
        self.advance();
        if !self.takes(b":") {
            return fault(at, Reason::Rule);
        }
        if let Some(first) = self.labels.insert(label, at) {
            return fault(at, Reason::Twice(first));
        }
        let mut row = [0; ROW_WORDS];
        (row[KIND], row[RATE]) = self.action()?;
        self.matching(&mut row)?;
        let label = label.to_vec();
        Ok(Rule { label, at, row })
    }

    fn action(&mut self) -> Read<(u32, u32)> {
        let kind = match self.word {
            b"allow" => ALLOW,
            b"deny" => DENY,
            b"none" => 0,
            b"reserve" => GMB,
            _ => return self.unwanted(Reason::Action),
        };
        self.advance();
        Ok((kind, if kind == GMB { self.rate()? } else { 0 }))
    }

    fn rate(&mut self) -> Read<u32> {
        let at = self.at;
        let number = self.want_value(number, Reason::Rate)?;
        let unit = match self.word {
            b"kbit/s" => 1,
            b"Mbit/s" => 1_000,
            b"Gbit/s" => 1_000_000,
            _ => return self.unwanted(Reason::Unit),
        };
        self.advance();
        match u64::from(number) * unit {
            rate if (1..=u64::from(MOST_RATE)).contains(&rate) => Ok(rate as u32),
            _ => fault(at, Reason::RateBeyond),
        }
    }

    fn matching(&mut self, row: &mut Row) -> Read<()> {
        if self.takes(b"any") {
            return Ok(());
        }
        if self.takes(b"never") {
            row[FLAGS] = EMPTY;
            return Ok(());
        }
        let start = self.at;
        if self.takes(b"in") {
            row[IN_PORT] = self.port()?;
            row[FLAGS] |= OF_IN_PORT;
        }
        self.protocol(row)?;
        if self.takes(b"from") {
            self.side(row, SOURCE, SOURCE_LENGTH, SOURCE_PORT, OF_SOURCE_PORT)?;
        }
        if self.takes(b"to") {
            self.side(
                row,
                DESTINATION,
                DESTINATION_LENGTH,
                DESTINATION_PORT,
                OF_DESTINATION_PORT,
            )?;
        }
        if self.at == start {
            self.unwanted(Reason::Match)
        } else {
            Ok(())
        }
    }

    fn port(&mut self) -> Read<u32> {
        self.want_value(|word| number(word).filter(|&port| port < PORTS), Reason::Port)
    }

    fn protocol(&mut self, row: &mut Row) -> Read<()> {
        const ICMP: u32 = 1;
        let named = match self.word {
            b"tcp" => Some(TCP),
            b"udp" => Some(UDP),
            b"icmp" => Some(ICMP),
            b"protocol" => None,
            _ => return Ok(()),
        };
        self.advance();
        row[PROTOCOL] = match named {
            Some(protocol) => protocol,
            None => self.want_value(
                |word| number(word).filter(|&number| number < PROTOCOLS),
                Reason::Protocol,
            )?,
        };
        row[FLAGS] |= OF_PROTOCOL;
        Ok(())
    }

    /// A prefix, a port, or both.
    fn side(&mut self, row: &mut Row, address: usize, length: usize, port: usize, flag: u32) -> Read<()> {
        let said = self.word == b"port";
        if !said {
            let Some((value, bits)) = prefix(self.word) else {
                return self.unwanted(Reason::Side);
            };
            if u64::from(value) & (u64::from(u32::MAX) >> bits) != 0 {
                return self.unwanted(Reason::HostBits(value, bits));
            }
            (row[address], row[length]) = (value, bits);
            self.advance();
        }
        if self.takes(b"port") {
            row[port] = self.port()?;
            row[FLAGS] |= flag;
        }
        Ok(())
    }
}

/// How many bytes stand before the first that stops, or all.
fn until(bytes: &[u8], stops: impl Fn(u8) -> bool) -> usize {
    let mut length = 0;
    while length < bytes.len() && !stops(bytes[length]) {
        length += 1;
    }
    length
}

fn supplied(name: &[u8]) -> Option<Cells> {
    match name {
        b"sibling" => Some(action::SIBLING),
        b"parent" => Some(action::PARENT),
        _ => None,
    }
}

fn cell_code(word: &[u8]) -> Option<u32> {
    last_cell(word).filter(|&code| code <= action::LAST_CODE)
}

fn last_cell(word: &[u8]) -> Option<u32> {
    let words: [&[u8]; 7] = [b"allow", b"deny", b"left", b"right", b"larger", b"smaller", b"sum"];
    words
        .iter()
        .position(|cell| *cell == word)
        .map(|place| place as u32 + 1)
}

/// The words of the policy file.
pub fn words(policy: &Policy) -> Vec<u32> {
    let rows = || policy.nodes.iter().flat_map(|node| &node.rules);
    let mut words = HEADER.to_vec();
    words.push(policy.operators.len() as u32);
    words.extend(policy.operators.iter().flat_map(|operator| operator.cells));
    words.push(rows().count() as u32);
    words.extend(rows().flat_map(|rule| rule.row));
    words.push(policy.nodes.len() as u32);
    for node in &policy.nodes {
        let mut record = [0; NODE_WORDS];
        record[INNER] = node.inner as u32;
        record[PARENT] = node.parent as u32;
        record[SIBLING] = node.sibling as u32;
        record[OWN] = node.rules.len() as u32;
        record[CHILDREN] = node.children as u32;
        words.extend(record);
    }
    words
}
