//! Lengths of outputs, working areas and inputs, and the limits.

use super::tables::draw_small_table;
use crate::comparing::{Mismatch, Run};
use crate::damage::any_bytes;
use crate::drawing::{draw_class, draw_names, draw_rows, draw_small_book, draw_walk, Draft};
use reference::fields::{Class, NAMES_LIMIT, NAME_LENGTH_LIMIT, ROW, ROWS_LIMIT, ROW_LIMIT, STATES_LIMIT};
use reference::random::Random;
use reference::table::{write_field, Arc, State, Table};
use reference::{Lent, INPUT_LIMIT, WORK_BYTES};

pub fn any_input(run: &mut Run) -> Result<(), Mismatch> {
    let (input, row) = (any_bytes(&mut run.random), any_bytes(&mut run.random));
    run.compare_build(&input)?;
    run.compare_rewrite(&input)?;
    run.compare_walk(&input, &row)?;
    Ok(())
}

pub fn build_outputs(run: &mut Run) -> Result<(), Mismatch> {
    let book = draw_small_book(&mut run.random).bytes();
    let built = run.compare_build(&book)?.expect("a valid book");
    for output in 0..=built.bytes.len() + 1 {
        run.compare_build_lent(&book, Lent { work: WORK_BYTES, output })?;
    }
    Ok(())
}

pub fn rewrite_outputs(run: &mut Run) -> Result<(), Mismatch> {
    let table = draw_small_table(&mut run.random).bytes();
    let rewritten = run.compare_rewrite(&table)?.expect("a valid table");
    for output in 0..=rewritten.bytes.len() + 1 {
        run.compare_rewrite_lent(&table, Lent { work: WORK_BYTES, output })?;
    }
    Ok(())
}

/// Each call with working areas too short, just long enough and longer, for inputs that are else accepted and others.
pub fn working_areas(run: &mut Run) -> Result<(), Mismatch> {
    let book = draw_small_book(&mut run.random).bytes();
    let table = draw_small_table(&mut run.random);
    let row = draw_walk(&mut run.random, &table, 5);
    let other = any_bytes(&mut run.random);
    for work in [0, 1, 1000, WORK_BYTES - 1, WORK_BYTES, WORK_BYTES + 1, 100_000] {
        for output in [0, INPUT_LIMIT] {
            for input in [&book, &table.bytes(), &other] {
                run.compare_build_lent(input, Lent { work, output })?;
                run.compare_rewrite_lent(input, Lent { work, output })?;
                run.compare_walk_lent(input, &row, work)?;
            }
        }
    }
    Ok(())
}

/// A table of exactly the limit's length and one longer by a byte; books and other bytes of both lengths.
pub fn longest_inputs(run: &mut Run) -> Result<(), Mismatch> {
    let at_limit = draw_longest_table(&mut run.random, 0).bytes();
    let beyond = draw_longest_table(&mut run.random, 1).bytes();
    assert_eq!((at_limit.len(), beyond.len()), (INPUT_LIMIT, INPUT_LIMIT + 1));
    for length in [INPUT_LIMIT - 1, INPUT_LIMIT, INPUT_LIMIT + 1] {
        run.compare_rewrite_lent(&at_limit, Lent { work: WORK_BYTES, output: length })?;
        run.compare_walk(&at_limit, &vec![0; length])?;
    }
    let mut inputs = vec![at_limit, beyond];
    for length in [INPUT_LIMIT, INPUT_LIMIT + 1] {
        inputs.push(draw_long_book(&mut run.random, length));
        inputs.push((0..length).map(|_| run.random.byte()).collect());
    }
    for input in inputs {
        run.compare_build(&input)?;
        run.compare_list(&input)?;
        run.compare_rewrite(&input)?;
        run.compare_walk(&input, &[0, 1, 2])?;
    }
    Ok(())
}

/// A valid table of 512 states and 64 names, of 65,535 bytes and `more`.
fn draw_longest_table(random: &mut Random, more: usize) -> Table {
    let mut names: Vec<Vec<u8>> = (0..NAMES_LIMIT).map(|number| format!("n{number:02}").into_bytes()).collect();
    // all else is names of 6 bytes with mark and length, a class of 6, states of 4, and arcs of 3: what is over goes to a name
    let over = (INPUT_LIMIT - 6 * NAMES_LIMIT - 6 - 4 * STATES_LIMIT) % 3;
    names[NAMES_LIMIT - 1].extend(vec![b'x'; over + more]);
    let mut arcs_left = (INPUT_LIMIT - 6 * NAMES_LIMIT - 6 - 4 * STATES_LIMIT) / 3;
    let mut states = vec![];
    for number in 0..STATES_LIMIT {
        // each state meets the next by name 0, and later states keep an arc each for that
        let later = STATES_LIMIT - 1 - number;
        let count = NAMES_LIMIT.min(arcs_left - later.saturating_sub(1));
        arcs_left -= count;
        let next = (number + 1).min(STATES_LIMIT - 1);
        let target = |name, random: &mut Random| if name == 0 { next } else { random.below(next + 1) };
        let arcs = (0..count).map(|name| Arc { name, target: target(name, random) }).collect();
        states.push(State { accepting: random.once_in(2), arcs });
    }
    Table { names, class: Class::SeenSet, states }
}

/// A small book and rows more, up to exactly the given length; the last row is as long as need be.
pub fn draw_long_book(random: &mut Random, length: usize) -> Vec<u8> {
    let mut book = draw_small_book(random).bytes();
    for _ in 0..random.below(ROWS_LIMIT) {
        write_field(&mut book, ROW, &[0; ROW_LIMIT]);
    }
    let last = vec![0; length - book.len() - 3];
    write_field(&mut book, ROW, &last);
    book
}

/// Each limit met, and passed by one.
pub fn limits(run: &mut Run) -> Result<(), Mismatch> {
    for count in [NAMES_LIMIT, NAMES_LIMIT + 1] {
        let names = draw_names(&mut run.random, count);
        let book = Draft { names, class: draw_class(&mut run.random), rows: draw_rows(&mut run.random, NAMES_LIMIT, 20) };
        run.compare_build(&book.bytes())?;
    }
    for over in [0, 1] {
        let mut book = draw_small_book(&mut run.random);
        book.rows = vec![vec![]; ROWS_LIMIT + over];
        run.compare_build(&book.bytes())?;
        book.names = vec![vec![b'n'; NAME_LENGTH_LIMIT + over]];
        run.compare_build(&book.bytes())?;
        let chain = chain_of_states(STATES_LIMIT + over);
        run.compare_rewrite(&chain)?;
        run.compare_walk(&chain, &[0; ROW_LIMIT])?;
    }
    tree_limit(run)
}

/// A table whose states lead each to the next.
fn chain_of_states(count: usize) -> Vec<u8> {
    let arcs = |number: usize| if number + 1 < count { vec![Arc { name: 0, target: number + 1 }] } else { vec![] };
    let states = (0..count).map(|number| State { accepting: number % 2 == 1, arcs: arcs(number) }).collect();
    Table { names: vec![b"n".to_vec()], class: Class::SeenSet, states }.bytes()
}

/// Thirteen rows with different first names: twelve of 40 and one of 31 need 512 states, with 32 in the last they need 513.
fn tree_limit(run: &mut Run) -> Result<(), Mismatch> {
    for last in [31, 32] {
        let rows = rows_about_tree_limit(&mut run.random, last);
        let names = draw_names(&mut run.random, NAMES_LIMIT);
        let class = draw_class(&mut run.random);
        run.compare_build(&Draft { names, class, rows }.bytes())?;
    }
    Ok(())
}

/// Thirteen rows with different first names, twelve of 40 and the last of so many. Mostly of many names, so that few states are joined
/// and the reference is quick.
pub fn rows_about_tree_limit(random: &mut Random, last: usize) -> Vec<Vec<u8>> {
    let used = if random.once_in(8) { random.between(4, 16) } else { NAMES_LIMIT };
    let mut rows = vec![];
    for first in 0..13 {
        let length = if first == 12 { last } else { ROW_LIMIT };
        let mut row: Vec<u8> = (0..length).map(|_| random.below(used) as u8).collect();
        row[0] = first;
        rows.push(row);
    }
    rows
}
