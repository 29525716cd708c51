//! A row walked over a table: which rows begin an admitted row is found by a search over the states, anew for each question.

use crate::check_sizes;
use crate::fields::{check_row, read_table};
use crate::refusal::Refusal;
use crate::table::Table;
use std::mem::replace;

/// The outcomes, with the numbers that the C header gives them.
#[derive(Clone, Copy, Debug, PartialEq, Eq)]
pub enum Outcome {
    Admitted = 1,
    OnTheWay = 2,
    Stops = 3,
}

#[derive(Clone, Debug, PartialEq, Eq)]
pub struct Walked<'row> {
    pub outcome: Outcome,
    /// The row's longest beginning that begins an admitted row; empty where the table admits none.
    pub beginning: &'row [u8],
    /// The names after which the beginning still begins an admitted row: bit n for name n.
    pub next_names: u64,
    pub count: u32,
}

/// Judges the table wholly, then the row, then walks it. `work` is the lent working area's length.
pub fn walk<'row>(table: &[u8], row: &'row [u8], work: usize) -> Result<Walked<'row>, Refusal> {
    check_sizes(table, work)?;
    let table = read_table(table)?;
    check_row(row, table.names.len())?;
    Ok(walk_table(&table, row))
}

/// Walks a row whose entries are numbers of the table's names.
pub fn walk_table<'row>(table: &Table, row: &'row [u8]) -> Walked<'row> {
    let outcome = match (admits(table, row), begins_admitted(table, row)) {
        (true, _) => Outcome::Admitted,
        (false, true) => Outcome::OnTheWay,
        (false, false) => Outcome::Stops,
    };
    let longest = (0..=row.len()).rev().find(|&length| begins_admitted(table, &row[..length]));
    let beginning = &row[..longest.unwrap_or(0)];
    let may_follow = |name: &u8| begins_admitted(table, &[beginning, &[*name]].concat());
    let next: Vec<u8> = (0..table.names.len() as u8).filter(may_follow).collect();
    Walked { outcome, beginning, next_names: next.iter().fold(0, |set, name| set | 1 << name), count: next.len() as u32 }
}

fn admits(table: &Table, row: &[u8]) -> bool {
    reached(table, row).is_some_and(|state| table.states[state].accepting)
}

/// Whether some admitted row begins with this one, itself counted.
pub fn begins_admitted(table: &Table, row: &[u8]) -> bool {
    reached(table, row).is_some_and(|state| leads_to_end(table, state))
}

/// The state that a row leads to, if it has an arc for each name.
fn reached(table: &Table, row: &[u8]) -> Option<usize> {
    row.iter().try_fold(0, |state, &entry| {
        let arcs = &table.states[state].arcs;
        arcs.iter().find(|arc| arc.name == usize::from(entry)).map(|arc| arc.target)
    })
}

/// Whether an accepting state can be come to from this one, in any number of steps.
pub fn leads_to_end(table: &Table, state: usize) -> bool {
    let mut seen = vec![false; table.states.len()];
    let mut ahead = vec![state];
    while let Some(state) = ahead.pop() {
        if table.states[state].accepting {
            return true;
        }
        ahead.extend(table.states[state].arcs.iter().map(|arc| arc.target).filter(|&target| !replace(&mut seen[target], true)));
    }
    false
}

/// What a walk told before it heeded ends: all names walked, and the last state accepting or not, or some name without an arc; the
/// beginning that has arcs, and the names of the arcs from where it leads. Over built tables it is still what a walk tells.
pub fn plain_walk<'row>(table: &Table, row: &'row [u8]) -> Walked<'row> {
    let with_arcs = |length: &usize| reached(table, &row[..*length]);
    let taken = (0..=row.len()).rev().find(|length| with_arcs(length).is_some()).expect("the empty row leads to the start");
    let state = &table.states[with_arcs(&taken).expect("it has arcs")];
    let outcome = match (taken == row.len(), state.accepting) {
        (true, true) => Outcome::Admitted,
        (true, false) => Outcome::OnTheWay,
        (false, _) => Outcome::Stops,
    };
    let next_names = state.arcs.iter().fold(0, |set, arc| set | 1u64 << arc.name);
    Walked { outcome, beginning: &row[..taken], next_names, count: state.arcs.len() as u32 }
}
