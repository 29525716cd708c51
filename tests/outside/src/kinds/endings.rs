//! Rows walked over tables in which states lead to no accepting one, or only by a long way; and over built tables, which have none.

use crate::comparing::{Mismatch, Run};
use crate::drawing::{draw_book, draw_class, draw_small_book, draw_walk, TOO_LONG};
use crate::ends::{draw_long_way, draw_with_dead_states};
use crate::library::Walked;
use reference::fields::{read_table, NAMES_LIMIT, ROW_LIMIT, STATES_LIMIT};
use reference::table::Table;
use reference::walk::plain_walk;
use reference::{INPUT_LIMIT, WORK_BYTES};

const STOPS: u8 = 3;

/// The empty row, and rows up to the longest and beyond, over a table of few and of any number of states.
pub fn rows(run: &mut Run) -> Result<(), Mismatch> {
    for most in [12, STATES_LIMIT] {
        let states = run.random.between(1, most);
        let table = draw_with_dead_states(&mut run.random, states);
        walk_some(run, &table)?;
    }
    Ok(())
}

/// The same over tables with one end, far from most states: of few states, of many, and of as many as there may be with as many arcs as
/// fit. The most arcs, 64 in each state, fit with 332 states.
pub fn long_ways(run: &mut Run) -> Result<(), Mismatch> {
    let (states, names) = (run.random.between(1, 40), run.random.between(1, 6));
    let small = draw_long_way(&mut run.random, states, names, false);
    walk_some(run, &small)?;
    let (states, full) = (run.random.between(325, STATES_LIMIT), run.random.once_in(2));
    let large = draw_long_way(&mut run.random, states, NAMES_LIMIT, full);
    walk_some(run, &large)?;
    let largest = draw_long_way(&mut run.random, STATES_LIMIT, NAMES_LIMIT, true);
    assert_eq!(largest.bytes().len(), INPUT_LIMIT);
    walk_some(run, &largest)
}

fn walk_some(run: &mut Run, table: &Table) -> Result<(), Mismatch> {
    let bytes = table.bytes();
    let any = run.random.between(0, ROW_LIMIT / 4);
    for length in [0, 1, 2, 3, any, ROW_LIMIT, ROW_LIMIT + 1, TOO_LONG[0]] {
        let row = draw_walk(&mut run.random, table, length);
        run.compare_walk(&bytes, &row)?;
    }
    Ok(())
}

/// Days tapped over a table of few states, and now and then over one of as many states and arcs as there may be.
pub fn tapped(run: &mut Run) -> Result<(), Mismatch> {
    let states = run.random.between(1, 40);
    let table = match run.random.below(30) {
        0 => draw_long_way(&mut run.random, STATES_LIMIT, NAMES_LIMIT, true),
        1..=9 => draw_long_way(&mut run.random, states, 5, false),
        _ => draw_with_dead_states(&mut run.random, states),
    };
    tap_a_day(run, &table.bytes())
}

/// A day tapped up to the longest, each name one of those that may come next: at every tap it begins an admitted row.
fn tap_a_day(run: &mut Run, bytes: &[u8]) -> Result<(), Mismatch> {
    let mut day: Vec<u8> = vec![];
    let mut walked = run.compare_walk(bytes, &day)?;
    while walked.next_count > 0 && day.len() < ROW_LIMIT {
        let next: Vec<u8> = (0..NAMES_LIMIT as u8).filter(|name| walked.next_names >> name & 1 == 1).collect();
        day.push(next[run.random.below(next.len())]);
        walked = run.compare_walk(bytes, &day)?;
        if walked.outcome == STOPS || walked.walked as usize != day.len() {
            let what = "a name that may come next leads to a row that begins no admitted one".into();
            return Err(Mismatch::new("plans_walk", what, &[("table", bytes), ("row", &day)]));
        }
    }
    Ok(())
}

/// Over tables of few states that are damaged by one bit of a state's first byte or of a target, and so often still accepted: walks with
/// working areas of all lengths.
pub fn altered(run: &mut Run) -> Result<(), Mismatch> {
    let states = run.random.between(1, 8);
    let table = draw_with_dead_states(&mut run.random, states);
    let bytes = table.bytes();
    let front = bytes.len() - table.states.iter().map(|state| 4 + 3 * state.arcs.len()).sum::<usize>();
    for place in front..bytes.len() {
        let mut altered = bytes.clone();
        altered[place] ^= 1 << run.random.below(3);
        let length = run.random.between(0, 6);
        let row = draw_walk(&mut run.random, &table, length);
        let work = [0, WORK_BYTES - 1, WORK_BYTES, WORK_BYTES + 1, 100_000][run.random.below(5)];
        run.compare_walk_lent(&altered, &row, work)?;
        run.compare_walk(&altered, &row)?;
    }
    Ok(())
}

/// Over a built table a walk tells what it told before it heeded ends.
pub fn built(run: &mut Run) -> Result<(), Mismatch> {
    let book = if run.random.once_in(10) {
        let (class, entries) = (draw_class(&mut run.random), run.random.between(40, 120));
        draw_book(&mut run.random, class, entries)
    } else {
        draw_small_book(&mut run.random)
    };
    let bytes = run.compare_build(&book.bytes())?.expect("a book with few entries is accepted").bytes;
    let table = read_table(&bytes).expect("a built table can be read");
    let lengths = [0, 1, 2, 4, 8, 16, ROW_LIMIT];
    let mut rows: Vec<Vec<u8>> = lengths.iter().map(|&length| draw_walk(&mut run.random, &table, length)).collect();
    rows.extend(book.rows.into_iter().take(4));
    rows.retain(|row| row.iter().all(|&entry| usize::from(entry) < table.names.len()));
    for row in rows {
        let given = run.compare_walk(&bytes, &row)?;
        let before = plain_walk(&table, &row);
        let [next_count, outcome] = [before.count as u8, before.outcome as u8];
        let (walked, next_names) = (before.beginning.len() as u32, before.next_names);
        let told = Walked { refusal: 0, outcome, next_count, walked, next_names };
        if given != told {
            let what = format!("over a built table expected {told:?} as before, given {given:?}");
            return Err(Mismatch::new("plans_walk", what, &[("table", &bytes), ("row", &row)]));
        }
    }
    Ok(())
}
