//! How often each way of a table is used: how many rows of the book end in each state, and how often they pass each arc, repeats counted,
//! by walking the rows over the table one after the other.

use crate::fields::{read_book, read_table, COUNTS};
use crate::refusal::Refusal;
use crate::table::{write_field, State};
use crate::Built;

/// The counts of one state.
#[derive(Clone, Debug, PartialEq, Eq)]
pub struct StateCounts {
    /// How many rows end in the state.
    pub ends: usize,
    /// How often the rows pass each of its arcs, in their order.
    pub passes: Vec<usize>,
}

/// What an accepted build with counts gives back.
#[derive(Clone, Debug, PartialEq, Eq)]
pub struct Counted {
    pub built: Built,
    /// The bytes of the counts file.
    pub counts: Vec<u8>,
}

/// What was built from the book, with its counts; refusal 13 where their output, of so many bytes, is shorter.
pub fn with_counts(book: &[u8], built: Built, output: usize) -> Result<Counted, Refusal> {
    let rows = read_book(book)?.rows;
    let states = read_table(&built.bytes)?.states;
    let counts = bytes(&count(&states, &rows));
    if counts.len() > output {
        return Err(Refusal::OutputTooShort);
    }
    Ok(Counted { built, counts })
}

/// The counts of each state, for rows that can be walked to their ends.
pub fn count(states: &[State], rows: &[Vec<u8>]) -> Vec<StateCounts> {
    let unused = |state: &State| StateCounts { ends: 0, passes: vec![0; state.arcs.len()] };
    let mut counts: Vec<StateCounts> = states.iter().map(unused).collect();
    for row in rows {
        let mut reached = 0;
        for &entry in row {
            let arcs = &states[reached].arcs;
            let place = arcs.iter().position(|arc| arc.name == usize::from(entry)).expect("a row that can be walked");
            counts[reached].passes[place] += 1;
            reached = arcs[place].target;
        }
        counts[reached].ends += 1;
    }
    counts
}

/// The counts file: a field for each state, of numbers of two bytes, high byte first.
fn bytes(counts: &[StateCounts]) -> Vec<u8> {
    let mut bytes = vec![];
    for state in counts {
        let numbers = [&[state.ends][..], &state.passes].concat();
        let content: Vec<u8> = numbers.iter().flat_map(|&number| (number as u16).to_be_bytes()).collect();
        write_field(&mut bytes, COUNTS, &content);
    }
    bytes
}
