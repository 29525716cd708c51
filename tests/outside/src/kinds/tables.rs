//! Tables rewritten.

use crate::comparing::{Mismatch, Run};
use crate::damage::{damaged_everywhere, moved_fields};
use crate::drawing::{all_classes, draw_small_book, draw_table};
use crate::ends::draw_with_dead_states;
use reference::fields::{read_table, STATES_LIMIT};
use reference::random::Random;
use reference::table::Table;
use reference::{build, Lent, INPUT_LIMIT, WORK_BYTES};

/// A table of few states: one that a small book gives, or any, or one with states that lead to no end.
pub fn draw_small_table(random: &mut Random) -> Table {
    let states = random.between(1, 12);
    match random.below(4) {
        0 => return draw_table(random, states),
        1 => return draw_with_dead_states(random, states),
        _ => {}
    }
    let book = draw_small_book(random).bytes();
    let built = build(&book, Lent { work: WORK_BYTES, output: INPUT_LIMIT }, random).expect("a small book is accepted");
    read_table(&built.bytes).expect("a built table can be read")
}

/// A table with every class, and one of any number of states.
pub fn rewritten(run: &mut Run) -> Result<(), Mismatch> {
    let states = run.random.between(1, STATES_LIMIT);
    let large = draw_table(&mut run.random, states);
    same_bytes(run, &large.bytes())?;
    let mut table = draw_small_table(&mut run.random);
    for class in all_classes().into_iter().flatten() {
        table.class = class;
        same_bytes(run, &table.bytes())?;
    }
    Ok(())
}

/// An accepted table is rewritten to the same bytes.
fn same_bytes(run: &mut Run, table: &[u8]) -> Result<(), Mismatch> {
    let rewritten = run.compare_rewrite(table)?;
    if rewritten.is_none_or(|rewritten| rewritten.bytes != table) {
        let what = "an accepted table is not rewritten to the same bytes".into();
        return Err(Mismatch::new("plans_rewrite", what, &[("table", table)]));
    }
    Ok(())
}

pub fn damaged(run: &mut Run) -> Result<(), Mismatch> {
    let table = draw_small_table(&mut run.random).bytes();
    for input in damaged_everywhere(&table, &mut run.random) {
        run.compare_rewrite(&input)?;
    }
    Ok(())
}

pub fn cut(run: &mut Run) -> Result<(), Mismatch> {
    let table = draw_small_table(&mut run.random).bytes();
    for length in 0..table.len() {
        run.compare_rewrite(&table[..length])?;
    }
    Ok(())
}

pub fn moved(run: &mut Run) -> Result<(), Mismatch> {
    let table = draw_small_table(&mut run.random).bytes();
    for input in moved_fields(&table, &mut run.random) {
        run.compare_rewrite(&input)?;
    }
    Ok(())
}
