use super::{many_names, ENOUGH};
use crate::fields::Class;
use crate::random::Random;
use crate::rewrite;
use crate::table::{Arc, State, Table};
use crate::walk::{begins_admitted, plain_walk, walk_table, Outcome};
use Outcome::{Admitted, OnTheWay, Stops};

/// A table of so many names: for each state whether it accepts, and its arcs by name and target.
fn table(names: usize, states: &[(bool, &[(usize, usize)])]) -> Table {
    let names = many_names(names).into_iter().map(String::into_bytes).collect();
    let arcs = |arcs: &[(usize, usize)]| arcs.iter().map(|&(name, target)| Arc { name, target }).collect();
    let states = states.iter().map(|(accepting, list)| State { accepting: *accepting, arcs: arcs(list) }).collect();
    let table = Table { names, class: Class::DEFAULT, states };
    assert!(rewrite(&table.bytes(), ENOUGH).is_ok(), "such tables are legal");
    table
}

/// Outcome, length of the beginning, next names and their number.
fn told(table: &Table, row: &[u8]) -> (Outcome, usize, u64, u32) {
    let walked = walk_table(table, row);
    assert_eq!(walked.beginning, &row[..walked.beginning.len()]);
    (walked.outcome, walked.beginning.len(), walked.next_names, walked.count)
}

/// The second supplier's table: state 2 leads to no accepting state.
fn suppliers() -> Table {
    table(2, &[(false, &[(0, 1), (1, 2)]), (true, &[]), (false, &[(0, 2)])])
}

#[test]
fn a_state_with_no_way_to_an_end_is_left_out() {
    let table = suppliers();
    assert_eq!(told(&table, &[]), (OnTheWay, 0, 0b01, 1));
    assert_eq!(told(&table, &[0]), (Admitted, 1, 0, 0));
    assert_eq!(told(&table, &[1]), (Stops, 0, 0b01, 1));
    assert_eq!(told(&table, &[1, 0, 0]), (Stops, 0, 0b01, 1));
    assert_eq!(told(&table, &[0, 0]), (Stops, 1, 0, 0));
    assert_eq!(plain_walk(&table, &[1, 0]).outcome, OnTheWay);
}

#[test]
fn where_no_row_is_admitted_every_row_stops() {
    for table in [table(1, &[(false, &[])]), table(2, &[(false, &[(0, 1)]), (false, &[(0, 0), (1, 1)])])] {
        for row in [&[][..], &[0], &[0, 0], &[0, 0, 0, 0]] {
            assert_eq!(told(&table, row), (Stops, 0, 0, 0));
        }
    }
}

#[test]
fn an_end_that_is_behind_the_row_counts() {
    // a cycle whose only way out is at its far side, and a state beside it that leads only to itself
    let table =
        table(2, &[(false, &[(0, 1)]), (false, &[(0, 2), (1, 3)]), (false, &[(0, 0), (1, 4)]), (false, &[(1, 3)]), (true, &[])]);
    assert_eq!(told(&table, &[0; 40]), (OnTheWay, 40, 0b01, 1));
    assert_eq!(told(&table, &[0, 0]), (OnTheWay, 2, 0b11, 2));
    assert_eq!(told(&table, &[0, 0, 1]), (Admitted, 3, 0, 0));
    assert_eq!(told(&table, &[0, 1, 1]), (Stops, 1, 0b01, 1));
}

/// Every row of two names up to this length.
fn rows_to(length: usize) -> Vec<Vec<u8>> {
    let mut rows: Vec<Vec<u8>> = vec![vec![]];
    for place in 0..(1 << length) - 1 {
        rows.extend([0, 1].map(|name| [&rows[place][..], &[name]].concat()));
    }
    rows
}

/// By words alone: an admitted row that begins with this one has at most as many names more as there are states less one.
#[test]
fn rows_that_begin_an_admitted_row() {
    let (mut random, mut left_out) = (Random::new(1), 0);
    let rows = rows_to(6);
    for _ in 0..2000 {
        let states = random.between(1, 4);
        let mut arcs =
            || (0..2).filter_map(|name| (!random.once_in(3)).then(|| Arc { name, target: random.below(states) })).collect();
        let mut all: Vec<State> = (0..states).map(|_| State { accepting: false, arcs: arcs() }).collect();
        all.iter_mut().for_each(|state| state.accepting = random.once_in(3));
        let table = Table { names: vec![b"a".to_vec(), b"b".to_vec()], class: Class::DEFAULT, states: all };
        let admitted: Vec<&Vec<u8>> = rows.iter().filter(|row| walk_table(&table, row).outcome == Admitted).collect();
        for row in rows_to(3) {
            assert_eq!(begins_admitted(&table, &row), admitted.iter().any(|longer| longer.starts_with(&row)));
            left_out += usize::from(walk_table(&table, &row) != plain_walk(&table, &row));
        }
    }
    assert!(left_out > 1000, "{left_out} walks tell otherwise than arcs alone");
}
