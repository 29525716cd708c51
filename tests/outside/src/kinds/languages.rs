//! Claims over several calls: books with the same set of rows, and tables that are equal.

use crate::comparing::{Mismatch, Run};
use crate::drawing::{add_copies, draw_class, draw_names, draw_rows, draw_small_book, draw_walk, Draft};
use reference::fields::{read_table, Class, ROWS_LIMIT};

const ADMITTED: u8 = 1;

/// A book with its rows shuffled and repeated, and with the class that no class field means, gives the same bytes and numbers.
pub fn same_rows(run: &mut Run) -> Result<(), Mismatch> {
    let book = draw_small_book(&mut run.random);
    let bytes = book.bytes();
    let built = run.compare_build(&bytes)?;
    for _ in 0..4 {
        let mut same = book.clone();
        let copies = run.random.below(ROWS_LIMIT + 1 - book.rows.len());
        add_copies(&mut run.random, &mut same.rows, copies);
        if same.class.is_none() && run.random.once_in(2) {
            same.class = Some(Class::DEFAULT);
        }
        let same = same.bytes();
        if run.compare_build(&same)? != built {
            let what = "books with the same names, class and set of rows give different bytes or numbers".into();
            return Err(Mismatch::new("plans_build", what, &[("book", &bytes), ("the other", &same)]));
        }
    }
    Ok(())
}

/// Two books of one class and the same names: each table admits its book's rows; where the tables are equal, no row of up to 6
/// names separates them. Half the time the second book is the first with rows added that often leave its table as it is.
pub fn pairs(run: &mut Run) -> Result<(), Mismatch> {
    let book = draw_book_of_few_names(run);
    let table = table_of(run, &book)?;
    let mut other = book.clone();
    if run.random.once_in(2) {
        let entries = run.random.between(0, 12);
        other.rows = draw_rows(&mut run.random, book.names.len(), entries);
    } else {
        add_admitted_rows(run, &table, &mut other)?;
    }
    let other_table = table_of(run, &other)?;
    if table == other_table {
        admit_the_same(run, &table, &other_table)?;
    }
    Ok(())
}

/// The table of a book admits the least set of rows of the class that holds the book. Rows of that set added to the book leave it
/// the least: the two tables may differ in their states, but admit the same rows.
pub fn grown(run: &mut Run) -> Result<(), Mismatch> {
    let book = draw_book_of_few_names(run);
    let table = table_of(run, &book)?;
    let mut grown = book.clone();
    add_admitted_rows(run, &table, &mut grown)?;
    let grown_table = table_of(run, &grown)?;
    admit_the_same(run, &table, &grown_table)
}

/// A book of three names at most, so that all rows of up to 6 names can be walked.
fn draw_book_of_few_names(run: &mut Run) -> Draft {
    let (class, entries) = (draw_class(&mut run.random), run.random.between(0, 16));
    let count = run.random.between(1, 3);
    let names = draw_names(&mut run.random, count);
    let rows = draw_rows(&mut run.random, count, entries);
    Draft { names, class, rows }
}

/// No row of up to 6 names is admitted by one of the tables only.
fn admit_the_same(run: &mut Run, table: &[u8], other: &[u8]) -> Result<(), Mismatch> {
    let names = read_table(table).expect("a built table can be read").names.len();
    for row in rows_to_six(names) {
        let admitted = run.compare_walk(table, &row)?.outcome == ADMITTED;
        if (run.compare_walk(other, &row)?.outcome == ADMITTED) != admitted {
            let inputs = [("table", table), ("the other", other), ("row", &row)];
            return Err(Mismatch::new("plans_walk", "a row is admitted by one of the tables only".into(), &inputs));
        }
    }
    Ok(())
}

/// The table of a valid book, found to admit all its rows.
fn table_of(run: &mut Run, book: &Draft) -> Result<Vec<u8>, Mismatch> {
    let bytes = book.bytes();
    let table = run.compare_build(&bytes)?.expect("a small book is accepted").bytes;
    for row in &book.rows {
        let walked = run.compare_walk(&table, row)?;
        if walked.outcome != ADMITTED {
            let what = "a row of the book is not admitted".into();
            return Err(Mismatch::new("plans_walk", what, &[("book", &bytes), ("table", &table), ("row", row)]));
        }
    }
    Ok(table)
}

/// Adds some rows that the table admits.
fn add_admitted_rows(run: &mut Run, table: &[u8], book: &mut Draft) -> Result<(), Mismatch> {
    let states = read_table(table).expect("a built table can be read");
    for _ in 0..4 {
        let length = run.random.between(0, 8);
        let row = draw_walk(&mut run.random, &states, length);
        if run.compare_walk(table, &row)?.outcome == ADMITTED {
            book.rows.push(row);
        }
    }
    Ok(())
}

/// Every row of up to six names.
fn rows_to_six(names: usize) -> Vec<Vec<u8>> {
    let mut rows: Vec<Vec<u8>> = vec![vec![]];
    let mut place = 0;
    while rows[place].len() < 6 {
        for name in 0..names as u8 {
            rows.push([&rows[place][..], &[name]].concat());
        }
        place += 1;
    }
    rows
}
