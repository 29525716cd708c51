//! Books built with counts, and without.

use super::books::draw_many_rows;
use super::sizes::{draw_long_book, rows_about_tree_limit};
use crate::comparing::{Mismatch, Run};
use crate::damage::{any_bytes, damaged_everywhere, moved_fields};
use crate::drawing::{add_copies, all_classes, draw_book, draw_class, draw_names, draw_small_book, Draft, SMALL};
use reference::counts::Counted;
use reference::fields::{Class, NAMES_LIMIT, ROWS_LIMIT, ROW_LIMIT};
use reference::{Lent, INPUT_LIMIT, WORK_BYTES};

/// The same names and rows with every class.
pub fn every_class(run: &mut Run) -> Result<(), Mismatch> {
    let entries = run.random.between(0, SMALL);
    let mut book = draw_book(&mut run.random, None, entries);
    let copies = run.random.below(4);
    add_copies(&mut run.random, &mut book.rows, copies);
    for class in all_classes() {
        book.class = class;
        run.compare_counted(&book.bytes())?;
    }
    Ok(())
}

/// A book of up to 220 names' numbers, in outputs that are long enough and in outputs at the boundaries.
pub fn large(run: &mut Run) -> Result<(), Mismatch> {
    let entries = run.random.between(60, 220);
    let class = draw_class(&mut run.random);
    let book = draw_book(&mut run.random, class, entries).bytes();
    let Some(counted) = run.compare_counted(&book)? else {
        return Ok(());
    };
    at_boundary(run, &book, &counted)
}

/// Both outputs of a length that is one less than needed, just enough or one more.
fn at_boundary(run: &mut Run, book: &[u8], counted: &Counted) -> Result<(), Mismatch> {
    let mut about = |length: usize| length - 1 + run.random.below(3);
    let (output, room) = (about(counted.built.bytes.len()), about(counted.counts.len()));
    run.compare_counted_lent(book, Lent { work: WORK_BYTES, output }, room)?;
    Ok(())
}

/// A book with copies of rows; with its rows shuffled, which gives the same counts; and with one row more that is a copy, which gives the
/// same table and other counts.
pub fn bags(run: &mut Run) -> Result<(), Mismatch> {
    let mut book = if run.random.once_in(20) { draw_many_rows(&mut run.random) } else { draw_small_book(&mut run.random) };
    book.rows.truncate(ROWS_LIMIT - 1);
    let copies = run.random.between(0, ROWS_LIMIT - 1 - book.rows.len());
    add_copies(&mut run.random, &mut book.rows, copies);
    let first = book.bytes();
    let Some(counted) = run.compare_counted(&first)? else {
        return Ok(());
    };
    run.random.shuffle(&mut book.rows);
    let shuffled = run.compare_counted(&book.bytes())?;
    let same = shuffled.as_ref() == Some(&counted);
    claim(same, "the same rows in another order give another table or other counts", &first, &book)?;
    add_copies(&mut run.random, &mut book.rows, 1);
    let repeated = run.compare_counted(&book.bytes())?;
    let same_table = repeated.as_ref().is_some_and(|repeated| repeated.built == counted.built);
    claim(same_table, "a row repeated gives another table", &first, &book)?;
    let other_counts = repeated.is_some_and(|repeated| repeated.counts != counted.counts);
    claim(other_counts, "a row repeated gives the same counts", &first, &book)
}

/// What is to hold of two books' builds.
fn claim(holds: bool, otherwise: &str, book: &[u8], other: &Draft) -> Result<(), Mismatch> {
    if holds {
        return Ok(());
    }
    Err(Mismatch::new("plans_build_counted", otherwise.to_string(), &[("book", book), ("the other", &other.bytes())]))
}

pub fn damaged(run: &mut Run) -> Result<(), Mismatch> {
    let book = draw_small_book(&mut run.random).bytes();
    for input in damaged_everywhere(&book, &mut run.random) {
        run.compare_counted(&input)?;
    }
    Ok(())
}

pub fn cut_and_moved(run: &mut Run) -> Result<(), Mismatch> {
    let book = draw_small_book(&mut run.random).bytes();
    for length in 0..book.len() {
        run.compare_counted(&book[..length])?;
    }
    for input in moved_fields(&book, &mut run.random) {
        run.compare_counted(&input)?;
    }
    Ok(())
}

/// Each output of every length up to one more than needed, the other long enough; and both of lengths about what is needed.
pub fn outputs(run: &mut Run) -> Result<(), Mismatch> {
    let book = draw_small_book(&mut run.random).bytes();
    let counted = run.compare_counted(&book)?.expect("a valid book");
    let (table, counts) = (counted.built.bytes.len(), counted.counts.len());
    for room in 0..=counts + 1 {
        run.compare_counted_lent(&book, Lent { work: WORK_BYTES, output: table }, room)?;
    }
    for output in 0..=table + 1 {
        run.compare_counted_lent(&book, Lent { work: WORK_BYTES, output }, counts)?;
    }
    for output in [0, table - 1, table, table + 1] {
        for room in [0, counts - 1, counts, counts + 1] {
            run.compare_counted_lent(&book, Lent { work: WORK_BYTES, output }, room)?;
        }
    }
    Ok(())
}

/// Working areas too short, just long enough and longer, for a book and for any bytes, with no outputs and with enough.
pub fn working_areas(run: &mut Run) -> Result<(), Mismatch> {
    let book = draw_small_book(&mut run.random).bytes();
    let other = any_bytes(&mut run.random);
    for work in [0, 1, 1000, WORK_BYTES - 1, WORK_BYTES, WORK_BYTES + 1, 100_000] {
        for (output, room) in [(0, 0), (0, INPUT_LIMIT), (INPUT_LIMIT, 0), (INPUT_LIMIT, INPUT_LIMIT)] {
            run.compare_counted_lent(&book, Lent { work, output }, room)?;
            run.compare_counted_lent(&other, Lent { work, output }, room)?;
        }
    }
    Ok(())
}

/// The largest numbers, 256 and 257 rows, trees of 512 and 513 states, and books of 65,535 and 65,536 bytes; each also with outputs too
/// short.
pub fn limits(run: &mut Run) -> Result<(), Mismatch> {
    let mut books = vec![equal_rows(run, ROWS_LIMIT), equal_rows(run, ROWS_LIMIT + 1), most_passes(run), different_rows(run)];
    books.extend([31, 32].map(|last| {
        let rows = rows_about_tree_limit(&mut run.random, last);
        Draft { names: draw_names(&mut run.random, NAMES_LIMIT), class: draw_class(&mut run.random), rows }
    }));
    let mut inputs: Vec<Vec<u8>> = books.iter().map(Draft::bytes).collect();
    inputs.extend([INPUT_LIMIT, INPUT_LIMIT + 1].map(|length| draw_long_book(&mut run.random, length)));
    for input in inputs {
        let counted = run.compare_counted(&input)?;
        if let Some(counted) = counted {
            at_boundary(run, &input, &counted)?;
        }
        run.compare_counted_lent(&input, Lent { work: WORK_BYTES, output: INPUT_LIMIT }, 0)?;
    }
    Ok(())
}

/// So many times the same row, of any length that there may be, mostly of one name.
fn equal_rows(run: &mut Run, count: usize) -> Draft {
    let used = if run.random.once_in(4) { 2 } else { 1 };
    let length = run.random.between(0, ROW_LIMIT);
    let row: Vec<u8> = (0..length).map(|_| run.random.below(used) as u8).collect();
    Draft { names: draw_names(&mut run.random, used), class: draw_class(&mut run.random), rows: vec![row; count] }
}

/// The book with the largest number, 10,239, in its counts: one state, whose arc 255 rows pass 40 times and one 39 times. Or 256 rows of
/// 40, which pass an arc 39 times each.
fn most_passes(run: &mut Run) -> Draft {
    let mut rows = vec![vec![0; ROW_LIMIT]; ROWS_LIMIT];
    let mut class = Class::Context { k: 1, h: 1 };
    if run.random.once_in(2) {
        class = Class::LastNames { j: 0 };
        let shorter = run.random.below(ROWS_LIMIT);
        rows[shorter].pop();
    }
    Draft { names: draw_names(&mut run.random, 1), class: Some(class), rows }
}

/// 256 different rows of 40: they share their first 38 entries, then four names follow, and each of 64.
fn different_rows(run: &mut Run) -> Draft {
    let first: Vec<u8> = (0..ROW_LIMIT - 2).map(|_| run.random.below(NAMES_LIMIT) as u8).collect();
    let row = |number: usize| [&first[..], &[(number / NAMES_LIMIT) as u8, (number % NAMES_LIMIT) as u8]].concat();
    let mut rows: Vec<Vec<u8>> = (0..ROWS_LIMIT).map(row).collect();
    run.random.shuffle(&mut rows);
    Draft { names: draw_names(&mut run.random, NAMES_LIMIT), class: draw_class(&mut run.random), rows }
}
