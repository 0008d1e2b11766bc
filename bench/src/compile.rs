//! The compile, within the lent buffers.

use crate::action::{self, Cells, join, row_action};
use crate::flow::{self, KIND, ROW_WORDS, Row, is_empty, overlap};
use crate::numbers;
use crate::policy::{self, CHILDREN, INNER, OWN, PARENT, Policy, Refusal, SIBLING};
use crate::table::MOST_ROWS;

/// There is no room.
struct Full;

#[inline(never)]
pub fn compile(file: &[u32], table: &mut [u32], scratch: &mut [u32]) -> Result<usize, Refusal> {
    let left = policy::read(file)?;
    let room = (table.len() / ROW_WORDS).min(MOST_ROWS);
    if scratch.len() < ROW_WORDS * room {
        return Err(policy::refusal(numbers::SCRATCH, 0));
    }
    let mut build = Build {
        left,
        table: &mut table.as_chunks_mut().0[..room],
        scratch: &mut scratch.as_chunks_mut().0[..room],
    };
    let built = build.subtree(0);
    scratch.fill(0);
    let Ok(rows) = built else {
        table.fill(0);
        return Err(policy::refusal(numbers::ROOM, 0));
    };
    table[ROW_WORDS * rows..].fill(0);
    Ok(rows)
}

struct Build<'a> {
    left: Policy<'a>,
    table: &'a mut [Row],
    scratch: &'a mut [Row],
}

impl Build<'_> {
    /// The table of the first subtree of those left, from a row on; answers its end.
    fn subtree(&mut self, start: usize) -> Result<usize, Full> {
        let (node, nodes) = self.left.nodes.split_first().unwrap();
        let (own, atoms) = self.left.atoms.split_at(node[OWN] as usize);
        self.left.nodes = nodes;
        self.left.atoms = atoms;
        let operators = self.left.operators;
        let mut middle = start;
        for atom in own.iter().rev() {
            middle = self.join_atom(&operators[node[INNER] as usize], atom, start, middle)?;
        }
        let end = self.children(node[SIBLING], node[CHILDREN], middle)?;
        self.join(&operators[node[PARENT] as usize], start, middle, end)
    }

    fn children(&mut self, sibling: u32, count: u32, start: usize) -> Result<usize, Full> {
        if count == 0 {
            return Ok(start);
        }
        let operators = self.left.operators;
        let middle = self.subtree(start)?;
        let end = self.children(sibling, count - 1, middle)?;
        self.join(&operators[sibling as usize], start, middle, end)
    }

    /// Joins an atom with the table at start..end.
    fn join_atom(&mut self, cells: &Cells, atom: &Row, start: usize, end: usize) -> Result<usize, Full> {
        if is_empty(atom) {
            return Ok(end);
        }
        let made = common_with(cells, atom, &self.table[start..end], self.scratch, 0)?;
        *self.scratch.get_mut(made).ok_or(Full)? = *atom;
        self.put_before(made + 1, start, end)
    }

    /// Joins the tables at start..middle and middle..end.
    fn join(&mut self, cells: &Cells, start: usize, middle: usize, end: usize) -> Result<usize, Full> {
        let mut made = 0;
        for row in &self.table[start..middle] {
            made = common_with(cells, row, &self.table[middle..end], self.scratch, made)?;
        }
        self.put_before(made, start, end)
    }

    /// Puts the first rows of scratch before the table at start..end.
    fn put_before(&mut self, made: usize, start: usize, end: usize) -> Result<usize, Full> {
        if end + made > self.table.len() {
            return Err(Full);
        }
        self.table.copy_within(start..end, start + made);
        self.table[start..start + made].copy_from_slice(&self.scratch[..made]);
        Ok(end + made)
    }
}

/// Adds the common rows of a row and a table to those made.
fn common_with(cells: &Cells, left: &Row, table: &[Row], out: &mut [Row], mut made: usize) -> Result<usize, Full> {
    for right in table {
        if overlap(left, right) {
            let row = out.get_mut(made).ok_or(Full)?;
            *row = flow::common(left, right);
            let joined = join(cells, row_action(left), row_action(right));
            row[KIND..].copy_from_slice(&action::words(joined));
            made += 1;
        }
    }
    Ok(made)
}
