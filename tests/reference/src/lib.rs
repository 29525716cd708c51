//! A second reading of docs/SCOPE.md: books read, joined one step at a time in random order, numbered and written; tables
//! read, rewritten and walked; listings; rows read from plans; how often each way is used. It shares no code with the proved library,
//! and is written to be read, not to be fast.

pub mod contexts;
pub mod counts;
pub mod fields;
pub mod functions;
pub mod joining;
pub mod listing;
pub mod plan;
pub mod plan_rows;
pub mod prefix_tree;
pub mod random;
pub mod refusal;
pub mod table;
pub mod walk;

use prefix_tree::PrefixTree;
use random::Random;
use refusal::Refusal;
use std::collections::BTreeSet;
use table::Table;

/// The longest book, table, plan or list of names, in bytes.
pub const INPUT_LIMIT: usize = 65_535;

/// The least length of a lent working area, in bytes.
pub const WORK_BYTES: usize = 65_536;

/// What an accepted build gives back.
#[derive(Clone, Debug, PartialEq, Eq)]
pub struct Built {
    pub bytes: Vec<u8>,
    pub states: usize,
    pub joins: usize,
    /// How many different rows the book has.
    pub distinct: usize,
}

/// What an accepted rewriting gives back.
#[derive(Clone, Debug, PartialEq, Eq)]
pub struct Rewritten {
    pub bytes: Vec<u8>,
    pub states: usize,
}

/// The lengths of the buffers that a caller lends, in bytes.
#[derive(Clone, Copy, Debug)]
pub struct Lent {
    pub work: usize,
    pub output: usize,
}

/// The table of a book. `random` chooses the order of the joins.
pub fn build(book: &[u8], lent: Lent, random: &mut Random) -> Result<Built, Refusal> {
    check_sizes(book, lent.work)?;
    let book = fields::read_book(book)?;
    let tree = PrefixTree::of_rows(&book.rows)?;
    let groups = joining::full_joining(&tree, book.class, random);
    let states = table::number_groups(&groups);
    let joins = tree.states() - states.len();
    let distinct = different_rows(&book.rows);
    let table = Table { names: book.names, class: book.class, states };
    Ok(Built { bytes: fit(&table, lent.output)?, states: table.states.len(), joins, distinct })
}

/// The size of the set of rows.
fn different_rows(rows: &[Vec<u8>]) -> usize {
    rows.iter().collect::<BTreeSet<_>>().len()
}

/// The table read and written again.
pub fn rewrite(table: &[u8], lent: Lent) -> Result<Rewritten, Refusal> {
    check_sizes(table, lent.work)?;
    let table = fields::read_table(table)?;
    Ok(Rewritten { bytes: fit(&table, lent.output)?, states: table.states.len() })
}

/// Refusal 1: an input too long or a working area too short.
pub fn check_sizes(input: &[u8], work: usize) -> Result<(), Refusal> {
    if input.len() > INPUT_LIMIT || work < WORK_BYTES {
        return Err(Refusal::BadSizes);
    }
    Ok(())
}

/// The table's bytes; refusal 13 where the output is shorter.
fn fit(table: &Table, output: usize) -> Result<Vec<u8>, Refusal> {
    let bytes = table.bytes();
    if bytes.len() > output {
        return Err(Refusal::OutputTooShort);
    }
    Ok(bytes)
}

#[cfg(test)]
mod tests;
