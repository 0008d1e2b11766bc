//! Reading a text: the words that are wanted, the operators, and what a text must
//! be as a whole. The first fault is the answer.

use super::faults::{
    MORE_OPERATORS, NAME_TWICE, NO_CELL, NO_HEADING, NO_ITEM, NO_LAST_CELL, NO_OPERATOR_NAME,
    NO_SUCH_OPERATOR, NO_TABLE, NO_TABLE_END, WORDS_BEHIND,
};
use super::words::{differ_by_one, words, Word};
use super::{Fault, More, Written, WrittenOperator};
use crate::model::edition::{MOST_OPERATORS, NEWEST};
use crate::model::operator::Cells;

/// The operators that are there by name.
pub const SIBLING: &str = "sibling";
pub const PARENT: &str = "parent";
/// The kinds that have cells, in the order of a table's columns and lines.
pub const KINDS: [&str; 3] = ["allow", "deny", "reserve"];
/// The words of cells, in the order of their codes; the last three are of rates.
pub const CELLS: [&str; 7] = ["allow", "deny", "left", "right", "larger", "smaller", "sum"];
const OF_ALL: usize = 4;

pub struct Reader<'a> {
    words: Vec<Word<'a>>,
    next: usize,
    pub written: Written,
}

/// What a text gives, or its first fault.
pub fn read(text: &[u8]) -> Result<Written, Fault> {
    let mut reader = Reader {
        words: words(text),
        next: 0,
        written: Written::default(),
    };
    while !reader.next().is("node") {
        reader.operator()?;
    }
    reader.root()?;
    reader.want_end()?;
    Ok(reader.written)
}

pub fn fault<T>(number: u32, place: usize, more: More) -> Result<T, Fault> {
    Err(Fault {
        number,
        place,
        more,
    })
}

impl<'a> Reader<'a> {
    /// The word that comes next, which is not taken.
    pub fn next(&self) -> Word<'a> {
        self.words[self.next]
    }

    /// The next word, taken. The end of the text stays.
    pub fn take(&mut self) -> Word<'a> {
        let word = self.next();
        self.next += usize::from(!word.is_end());
        word
    }

    /// The next word is taken if it is this one.
    pub fn takes(&mut self, word: &str) -> bool {
        let there = self.next().is(word);
        if there {
            self.take();
        }
        there
    }

    /// Another word stands where one was wanted.
    pub fn unwanted<T>(&self, number: u32) -> Result<T, Fault> {
        fault(number, self.next().place, More::Nothing)
    }

    pub fn want(&mut self, word: &str, number: u32) -> Result<(), Fault> {
        if self.takes(word) {
            Ok(())
        } else {
            self.unwanted(number)
        }
    }

    /// One of these words, as its place among them.
    pub fn want_one(&mut self, words: &[&str], number: u32) -> Result<usize, Fault> {
        match self.next().among(words) {
            Some(place) => {
                self.take();
                Ok(place)
            }
            None => self.unwanted(number),
        }
    }

    /// What the next word is read as.
    pub fn want_value<T>(
        &mut self,
        value: impl Fn(&[u8]) -> Option<T>,
        number: u32,
    ) -> Result<T, Fault> {
        match value(self.next().bytes) {
            Some(value) => {
                self.take();
                Ok(value)
            }
            None => self.unwanted(number),
        }
    }

    pub fn want_name(&mut self, number: u32) -> Result<Word<'a>, Fault> {
        if self.next().is_name() {
            Ok(self.take())
        } else {
            self.unwanted(number)
        }
    }

    fn want_end(&self) -> Result<(), Fault> {
        if self.next().is_end() {
            Ok(())
        } else {
            self.unwanted(WORDS_BEHIND)
        }
    }

    /// An item `operator`, and nothing else.
    fn operator(&mut self) -> Result<(), Fault> {
        let item = self.next();
        self.want("operator", NO_ITEM)?;
        if self.written.operators.len() == MOST_OPERATORS {
            return fault(MORE_OPERATORS, item.place, More::Nothing);
        }
        let name = self.want_name(NO_OPERATOR_NAME)?;
        if let Some(index) = self.operator_named(name.bytes) {
            let first = self.written.operators[index].place;
            return fault(NAME_TWICE, name.place, More::Place(first));
        }
        let cells = match supplied(name.bytes) {
            Some(cells) => cells,
            None => self.table()?,
        };
        self.add_operator(name.bytes, name.place, cells);
        Ok(())
    }

    fn table(&mut self) -> Result<Cells, Fault> {
        self.want("{", NO_TABLE)?;
        for (kind, number) in KINDS.iter().zip(NO_HEADING) {
            self.want(kind, number)?;
        }
        let mut cells = Cells::new();
        let last = NEWEST.operator_words() - 1;
        for (kind, number) in KINDS.iter().zip(NO_HEADING) {
            self.want(kind, number)?;
            for _ in KINDS {
                let cell = if cells.len() == last {
                    self.want_one(&CELLS, NO_LAST_CELL)?
                } else {
                    self.want_one(&CELLS[..OF_ALL], NO_CELL)?
                };
                cells.push(cell as u32 + 1);
            }
        }
        self.want("}", NO_TABLE_END)?;
        Ok(cells)
    }

    fn operator_named(&self, name: &[u8]) -> Option<usize> {
        let mut operators = self.written.operators.iter();
        operators.position(|operator| operator.name == name)
    }

    fn add_operator(&mut self, name: &[u8], place: usize, cells: Cells) {
        self.written.operators.push(WrittenOperator {
            name: name.to_vec(),
            place,
            cells,
        });
    }

    /// The index of the operator of this name, which is put behind the others if it is
    /// supplied and not among them yet. `place` is what uses it.
    pub fn use_operator(&mut self, name: &[u8], place: usize) -> Result<usize, Fault> {
        if let Some(index) = self.operator_named(name) {
            return Ok(index);
        }
        let Some(cells) = supplied(name) else {
            let mut operators = self.written.operators.iter();
            let near = operators.find(|operator| differ_by_one(&operator.name, name));
            let near = near.map(|operator| operator.place);
            return fault(NO_SUCH_OPERATOR, place, More::Near(near));
        };
        let index = self.written.operators.len();
        if index == MOST_OPERATORS {
            return fault(MORE_OPERATORS, place, More::Nothing);
        }
        self.add_operator(name, place, cells);
        Ok(index)
    }
}

/// The cells of the two operators that are supplied by name.
fn supplied(name: &[u8]) -> Option<Cells> {
    if name == SIBLING.as_bytes() {
        Some(NEWEST.sibling())
    } else if name == PARENT.as_bytes() {
        Some(NEWEST.parent())
    } else {
        None
    }
}
