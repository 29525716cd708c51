use super::{book, built, ENOUGH};
use crate::fields::{read_book, Class};
use crate::prefix_tree::PrefixTree;
use crate::random::Random;
use crate::walk::{walk, Outcome};
use crate::{build, WORK_BYTES};
use Outcome::{Admitted, OnTheWay, Stops};

struct Day {
    class: Class,
    rows: &'static [&'static str],
    tree: usize,
    states: usize,
    joins: usize,
    distinct: usize,
    walks: &'static [(&'static str, Outcome, usize)],
}

/// The number of each name of breakfast, dinner, lunch, snack, from its first letter.
fn row(letters: &str) -> Vec<u8> {
    letters.chars().map(|letter| "bdls".find(letter).expect("a worked day's name") as u8).collect()
}

fn book_of(day: &Day) -> Vec<u8> {
    let rows: Vec<Vec<u8>> = day.rows.iter().map(|letters| row(letters)).collect();
    book(&["breakfast", "dinner", "lunch", "snack"], Some(day.class), &rows)
}

fn check(day: Day) {
    let book = book_of(&day);
    let tree = PrefixTree::of_rows(&read_book(&book).unwrap().rows).unwrap();
    let table = built(&book).unwrap();
    assert_eq!((tree.states(), table.states, table.joins, table.distinct), (day.tree, day.states, day.joins, day.distinct));
    for letters in day.rows {
        assert_eq!(walk(&table.bytes, &row(letters), WORK_BYTES).unwrap().outcome, Admitted);
    }
    for (letters, outcome, length) in day.walks {
        let row = row(letters);
        let walked = walk(&table.bytes, &row, WORK_BYTES).unwrap();
        assert_eq!((walked.outcome, walked.beginning), (*outcome, &row[..*length]));
    }
    for seed in 0..50 {
        assert_eq!(build(&book, ENOUGH, &mut Random::new(seed)).unwrap(), table);
    }
}

const fn context(k: u8, h: u8) -> Class {
    Class::Context { k, h }
}

#[test]
fn p1_only_the_empty_row() {
    let walks = &[("", Admitted, 0), ("s", Stops, 0), ("b", Stops, 0)];
    check(Day { class: context(2, 1), rows: &[""], tree: 1, states: 1, joins: 0, distinct: 1, walks });
}

#[test]
fn p2_one_name_of_context() {
    let walks = &[("ss", Admitted, 2), ("sss", Admitted, 3), ("", OnTheWay, 0)];
    check(Day { class: context(1, 1), rows: &["ss"], tree: 3, states: 2, joins: 1, distinct: 1, walks });
}

#[test]
fn p3_only_the_row_itself() {
    let walks = &[("ss", Admitted, 2), ("", OnTheWay, 0), ("s", OnTheWay, 1), ("sss", Stops, 2)];
    check(Day { class: context(2, 1), rows: &["ss"], tree: 3, states: 3, joins: 0, distinct: 1, walks });
}

#[test]
fn p4_state_4_accepts() {
    let day = Day { class: context(2, 1), rows: &["bld", "bsld"], tree: 7, states: 5, joins: 2, distinct: 2, walks: &[] };
    let table = crate::fields::read_table(&built(&book_of(&day)).unwrap().bytes).unwrap();
    let accepting: Vec<usize> = (0..5).filter(|&number| table.states[number].accepting).collect();
    assert_eq!(accepting, [4]);
    check(day);
}

#[test]
fn p5_the_same_rows_joined_less() {
    check(Day { class: context(2, 2), rows: &["bld", "bsld"], tree: 7, states: 6, joins: 1, distinct: 2, walks: &[] });
}

#[test]
fn p6_admits_dsb() {
    let walks = &[("dsb", Admitted, 3)];
    check(Day { class: context(2, 1), rows: &["bsl", "dsl", "bsb"], tree: 8, states: 6, joins: 2, distinct: 3, walks });
}

#[test]
fn p7_stops_after_ds() {
    let walks = &[("dsb", Stops, 2)];
    check(Day { class: context(2, 2), rows: &["bsl", "dsl", "bsb"], tree: 8, states: 7, joins: 1, distinct: 3, walks });
}

#[test]
fn p8_empty_is_on_the_way() {
    let walks = &[("", OnTheWay, 0), ("sss", Admitted, 3)];
    check(Day { class: Class::SeenSet, rows: &["s", "ss"], tree: 3, states: 2, joins: 1, distinct: 2, walks });
}

#[test]
fn p9_empty_is_admitted() {
    let walks = &[("", Admitted, 0)];
    check(Day { class: Class::LastNames { j: 0 }, rows: &["s", "ss"], tree: 3, states: 1, joins: 2, distinct: 2, walks });
}

#[test]
fn p10_as_p8() {
    let walks = &[("", OnTheWay, 0), ("sss", Admitted, 3)];
    check(Day { class: Class::LastNames { j: 1 }, rows: &["s", "ss"], tree: 3, states: 2, joins: 1, distinct: 2, walks });
}

#[test]
fn p11_the_two_ends_join() {
    let walks = &[("b", OnTheWay, 1), ("s", OnTheWay, 1), ("bsb", Stops, 2)];
    check(Day { class: Class::SeenSet, rows: &["bs", "sb"], tree: 5, states: 4, joins: 1, distinct: 2, walks });
}

#[test]
fn p12_a_repeat_of_p3() {
    let once = Day { class: context(2, 1), rows: &["ss"], tree: 3, states: 3, joins: 0, distinct: 1, walks: &[] };
    let twice = Day { rows: &["ss", "ss"], ..once };
    assert_eq!(built(&book_of(&once)), built(&book_of(&twice)));
    check(twice);
}
