//! Reading the nodes of a text.

use super::faults::{
    MORE_NODES, MORE_RULES, NAME_TWICE, NODES_OPEN, NO_CHILD, NO_NODE_NAME, NO_NODE_START, NO_RULE,
    TOO_DEEP,
};
use super::reader::{fault, Reader, PARENT, SIBLING};
use super::words::Word;
use super::{Fault, More, WrittenNode, WrittenRule};
use crate::model::edition::{DEEPEST, MOST_ATOMS, MOST_NODES};

impl Reader<'_> {
    /// The root and all nodes in it. `open` has the nodes whose `}` is still to come.
    pub fn root(&mut self) -> Result<(), Fault> {
        let mut open = vec![self.node_start(1)?];
        self.rules()?;
        while let Some(&innermost) = open.last() {
            if self.next().is("node") {
                open.push(self.node_start(open.len() + 1)?);
                self.rules()?;
            } else if self.takes("}") {
                open.pop();
            } else if self.next().is_end() {
                let name = self.written.nodes[innermost].place;
                return fault(NODES_OPEN, self.next().place, More::Place(name));
            } else {
                return self.unwanted(NO_CHILD);
            }
        }
        Ok(())
    }

    /// From `node` to `{`. The node's index.
    fn node_start(&mut self, depth: usize) -> Result<usize, Fault> {
        let item = self.take();
        let index = self.written.nodes.len();
        if index == MOST_NODES {
            return fault(MORE_NODES, item.place, More::Nothing);
        }
        let name = self.want_name(NO_NODE_NAME)?;
        let mut nodes = self.written.nodes.iter();
        if let Some(first) = nodes.find(|node| node.name == name.bytes) {
            return fault(NAME_TWICE, name.place, More::Place(first.place));
        }
        if depth > DEEPEST {
            return fault(TOO_DEEP, name.place, More::Nothing);
        }
        let node = WrittenNode {
            name: name.bytes.to_vec(),
            place: name.place,
            depth,
            inner: self.operator_said("inside", SIBLING, name)?,
            sibling: self.operator_said("between", SIBLING, name)?,
            parent: self.operator_said("below", PARENT, name)?,
            rules: Vec::new(),
        };
        self.want("{", NO_NODE_START)?;
        self.written.nodes.push(node);
        Ok(index)
    }

    /// The operator behind this word, or the one that a node has which does not say so.
    fn operator_said(&mut self, word: &str, unsaid: &str, node: Word) -> Result<usize, Fault> {
        if self.takes(word) {
            let name = self.take();
            self.use_operator(name.bytes, name.place)
        } else {
            self.use_operator(unsaid.as_bytes(), node.place)
        }
    }

    /// All rules of the last node, up to its first child, its `}` or the text's end.
    fn rules(&mut self) -> Result<(), Fault> {
        loop {
            let first = self.next();
            if first.is("node") || first.is("}") || first.is_end() {
                return Ok(());
            }
            let rules = self.written.nodes.iter().map(|node| node.rules.len());
            if rules.sum::<usize>() == MOST_ATOMS {
                return self.unwanted(MORE_RULES);
            }
            let rule = self.rule()?;
            self.last_node().rules.push(rule);
        }
    }

    fn last_node(&mut self) -> &mut WrittenNode {
        let last = self.written.nodes.last_mut();
        last.expect("rules stand in a node")
    }

    fn rule(&mut self) -> Result<WrittenRule, Fault> {
        let label = self.want_name(NO_RULE)?;
        if !self.takes(":") {
            return fault(NO_RULE, label.place, More::Nothing);
        }
        let mut rules = self.last_node().rules.iter();
        if let Some(first) = rules.find(|rule| rule.label == label.bytes) {
            return fault(NAME_TWICE, label.place, More::Place(first.place));
        }
        Ok(WrittenRule {
            label: label.bytes.to_vec(),
            place: label.place,
            atom: self.atom()?,
        })
    }
}
