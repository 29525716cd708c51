//! Build and walk a second time, written for speed: the yardstick for the library. It shares no code with it and does the same
//! job: it refuses in the same order and leaves the lent working area zero. The algorithms are written once, over containers
//! of two sets: `arrays` that are kept between calls, and `maps` that every call makes anew.

#![forbid(unsafe_code)]

mod arrays;
mod containers;
mod contexts;
mod ends;
mod fields;
mod functions;
mod maps;
mod partition;
mod quotient;
mod refusals;
mod suffixes;
mod tree;
mod walk;

use crate::book::Class;
use crate::library::{Built, Walked, INPUT_LIMIT, WORK_BYTES};
pub use arrays::Arrays;
use containers::{Arcs, Column, Containers};
use contexts::Contexts;
pub use maps::Maps;
use partition::Partition;
use refusals::Refusal;
use std::iter::repeat_n;
use tree::Tree;
use walk::Table;

/// Group numbers are those of states of the prefix tree.
type State = u16;

const STATES: usize = crate::book::STATE_LIMIT;

/// The working memory of both calls.
#[derive(Default)]
pub struct Fast<C: Containers> {
    tree: Tree<C>,
    partition: Partition<C>,
    firsts: C::Firsts,
    contexts: Contexts<C>,
    /// The values of f.
    values: C::Column<u64>,
    /// Arcs against their direction: for each group and key a source.
    arrivals: [C::Arcs; 2],
    /// How many arcs the groups have.
    arcs: usize,
    /// Pairs of states to be joined.
    pending: Vec<(State, State)>,
    /// The groups that joins have enlarged.
    changed: C::Column<bool>,
    met: Vec<State>,
    numbers: C::Column<State>,
    accepting: C::Column<bool>,
    table: Table<C>,
}

impl<C: Containers> Fast<C> {
    /// As plans_build.
    pub fn build(&mut self, book: &[u8], work: &mut [u8], out: &mut [u8]) -> Built {
        let built = self.try_build(book, work.len(), out);
        work.fill(0);
        built.unwrap_or_else(|refusal| Built { refusal: refusal as u8, length: 0, states: 0, joins: 0, distinct: 0 })
    }

    /// As plans_walk.
    pub fn walk(&mut self, table: &[u8], row: &[u8], work: &mut [u8]) -> Walked {
        let walked = self.try_walk(table, row, work.len());
        work.fill(0);
        walked.unwrap_or_else(|refusal| Walked { refusal: refusal as u8, outcome: 0, next_count: 0, walked: 0, next_names: 0 })
    }

    fn try_build(&mut self, book: &[u8], work_length: usize, out: &mut [u8]) -> Result<Built, Refusal> {
        check_sizes(book, work_length)?;
        let front = self.tree.read(book)?;
        self.arcs = self.tree.count - 1;
        self.changed.set(repeat_n(false, self.tree.count));
        match front.class {
            Class::Context(k, h) => self.join_by_context(k, h, front.names),
            Class::SeenSet => self.join_by_seen_set(front.names),
            Class::Last(j) => self.join_by_last(j, front.names),
        }
        quotient::write(self, &book[..front.names_end], front.class, out)
    }

    /// Joins what is pending and what follows from it: the targets of joined groups by each name, and the sources by each key of
    /// the first `kinds` of the arrivals.
    fn settle(&mut self, kinds: usize) {
        let pending = &mut self.pending;
        while let Some((v, w)) = pending.pop() {
            if let Some((stays, gone)) = self.partition.join(v, w) {
                self.changed[stays] = true;
                self.tree.children.absorb(stays, gone, |a, b| {
                    self.arcs -= 1;
                    pending.push((a, b));
                });
                for arrivals in &mut self.arrivals[..kinds] {
                    arrivals.absorb(stays, gone, |a, b| pending.push((a, b)));
                }
            }
        }
    }

    fn try_walk(&mut self, table: &[u8], row: &[u8], work_length: usize) -> Result<Walked, Refusal> {
        check_sizes(table, work_length)?;
        self.table.read(table)?;
        self.table.walk(table, row)
    }
}

fn check_sizes(input: &[u8], work_length: usize) -> Result<(), Refusal> {
    if input.len() > INPUT_LIMIT || work_length < WORK_BYTES {
        return Err(Refusal::BadSizes);
    }
    Ok(())
}
