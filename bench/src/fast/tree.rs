//! The prefix tree of a book's rows, read from its bytes.

use super::containers::{Arcs, Column, Containers};
use super::fields::{field_at, read_front, Front, ROW};
use super::refusals::Refusal;
use super::suffixes::lengthen;
use super::{State, STATES};
use crate::book::{BOOK_ROWS, ROW_LIMIT};

#[derive(Default)]
pub struct Tree<C: Containers> {
    pub count: usize,
    pub nodes: C::Column<Node>,
    /// The states where rows end, each once: as many as the book has different rows.
    pub ends: Vec<State>,
    pub children: C::Arcs,
}

/// How a state of the tree is reached, and whether a row ends there.
#[derive(Clone, Copy, Default)]
pub struct Node {
    /// The last names, as `suffixes` has them.
    pub code: u64,
    pub parent: State,
    pub name: u8,
    pub accepting: bool,
}

impl<C: Containers> Tree<C> {
    /// Reads the book, row by row into the tree.
    pub fn read(&mut self, book: &[u8]) -> Result<Front, Refusal> {
        let front = read_front(book)?;
        self.count = 0;
        let bytes = book.len() - front.end;
        self.ends.clear();
        self.ends.reserve(BOOK_ROWS.min(bytes / 3));
        let states = STATES.min(1 + bytes);
        self.nodes.begin(states);
        self.children.begin(states, front.names);
        self.append(Node::default());
        let mut fits = true;
        let mut at = front.end;
        let mut rows = 0;
        while at < book.len() {
            let (mark, row) = field_at(book, at)?;
            check_row(mark, row, rows)?;
            fits &= self.add(row, front.names)?;
            rows += 1;
            at += 3 + row.len();
        }
        if !fits {
            return Err(Refusal::TreeTooLarge);
        }
        Ok(front)
    }

    fn append(&mut self, node: Node) {
        let state = self.count as State;
        self.nodes.append(state, node);
        self.children.append(state);
        self.count += 1;
    }

    /// Adds a row; false where the tree would be too large. A row with a number that is no name's is refused.
    fn add(&mut self, row: &[u8], names: usize) -> Result<bool, Refusal> {
        let mut parent = 0;
        let mut code = 0;
        for (at, &name) in row.iter().enumerate() {
            let key = usize::from(name);
            if key >= names {
                return Err(Refusal::BadRow);
            }
            code = lengthen(code, name);
            let next = self.count as State;
            let child = self.children.get_or_put(parent, key, next);
            if child == next {
                if self.count == STATES {
                    return check_names(&row[at..], names).map(|()| false);
                }
                self.append(Node { code, parent, name, accepting: false });
            }
            parent = child;
        }
        if !self.nodes[parent].accepting {
            self.nodes[parent].accepting = true;
            self.ends.push(parent);
        }
        Ok(true)
    }
}

fn check_row(mark: u8, row: &[u8], rows: usize) -> Result<(), Refusal> {
    if mark != ROW {
        return Err(Refusal::Misplaced);
    }
    if rows == BOOK_ROWS {
        return Err(Refusal::TooMany);
    }
    if row.len() > ROW_LIMIT {
        return Err(Refusal::BadRow);
    }
    Ok(())
}

pub fn check_names(row: &[u8], names: usize) -> Result<(), Refusal> {
    if row.iter().any(|&name| usize::from(name) >= names) {
        return Err(Refusal::BadRow);
    }
    Ok(())
}
