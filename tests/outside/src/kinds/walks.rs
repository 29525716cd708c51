//! Rows walked.

use super::tables::draw_small_table;
use crate::comparing::{Mismatch, Run};
use crate::damage::{damaged_at, moved_fields};
use crate::drawing::{draw_table, draw_walk, TOO_LONG};
use reference::fields::{ROW_LIMIT, STATES_LIMIT};

/// Rows over a small table, and over one of any number of states.
pub fn rows(run: &mut Run) -> Result<(), Mismatch> {
    let states = run.random.between(1, STATES_LIMIT);
    let tables = [draw_small_table(&mut run.random), draw_table(&mut run.random, states)];
    for table in tables {
        for _ in 0..10 {
            let length = run.random.between(0, ROW_LIMIT / 4);
            let row = draw_walk(&mut run.random, &table, length);
            run.compare_walk(&table.bytes(), &row)?;
        }
    }
    Ok(())
}

/// A row of each length, the last of them too long by one, and rows that are far too long.
pub fn row_lengths(run: &mut Run) -> Result<(), Mismatch> {
    let table = draw_small_table(&mut run.random);
    for length in (0..=ROW_LIMIT + 1).chain(TOO_LONG) {
        let row = draw_walk(&mut run.random, &table, length);
        run.compare_walk(&table.bytes(), &row)?;
    }
    Ok(())
}

pub fn damaged(run: &mut Run) -> Result<(), Mismatch> {
    let table = draw_small_table(&mut run.random);
    let bytes = table.bytes();
    let mut inputs = moved_fields(&bytes, &mut run.random);
    for place in 0..bytes.len() {
        inputs.push(bytes[..place].to_vec());
        inputs.extend(damaged_at(&bytes, place, &mut run.random));
    }
    run.random.shuffle(&mut inputs);
    for input in inputs.iter().take(200) {
        let length = run.random.between(0, 8);
        let row = draw_walk(&mut run.random, &table, length);
        run.compare_walk(input, &row)?;
    }
    Ok(())
}
