//! Books built.

use crate::comparing::{Mismatch, Run};
use crate::damage::{damaged_everywhere, moved_fields};
use crate::drawing::{
    add_copies, add_near_copies, all_classes, draw_book, draw_class, draw_names, draw_small_book, Draft, SMALL, TOO_LONG,
};
use reference::fields::{NAMES_LIMIT, ROWS_LIMIT, ROW_LIMIT};
use reference::random::Random;
use reference::{Lent, WORK_BYTES};

/// The same names and rows with every class.
pub fn every_class(run: &mut Run) -> Result<(), Mismatch> {
    let entries = run.random.between(0, SMALL);
    let mut book = draw_book(&mut run.random, None, entries);
    for class in all_classes() {
        book.class = class;
        run.compare_build(&book.bytes())?;
    }
    Ok(())
}

/// A book of up to 220 names' numbers, one in twenty of up to 520, built with outputs of any length that is enough and of one at
/// the boundary; its table rewritten at each boundary.
pub fn large(run: &mut Run) -> Result<(), Mismatch> {
    let entries = if run.random.once_in(20) { run.random.between(400, 520) } else { run.random.between(60, 220) };
    let class = draw_class(&mut run.random);
    let book = draw_book(&mut run.random, class, entries).bytes();
    let Some(built) = run.compare_build(&book)? else {
        return Ok(());
    };
    let boundaries = [built.bytes.len() - 1, built.bytes.len(), built.bytes.len() + 1];
    let output = boundaries[run.random.below(boundaries.len())];
    run.compare_build_lent(&book, Lent { work: WORK_BYTES, output })?;
    for output in boundaries {
        run.compare_rewrite_lent(&built.bytes, Lent { work: WORK_BYTES, output })?;
    }
    Ok(())
}

/// A book with many copies of rows, and rows that differ from others in their last entry only; built, and listed.
pub fn copies(run: &mut Run) -> Result<(), Mismatch> {
    let mut book = if run.random.once_in(20) { draw_many_rows(&mut run.random) } else { draw_small_book(&mut run.random) };
    let near = run.random.between(0, 4);
    add_near_copies(&mut run.random, book.names.len(), &mut book.rows, near);
    let copies = run.random.between(0, ROWS_LIMIT.saturating_sub(book.rows.len()));
    add_copies(&mut run.random, &mut book.rows, copies);
    let bytes = book.bytes();
    run.compare_build(&bytes)?;
    run.compare_list(&bytes)?;
    Ok(())
}

/// A book of up to 240 rows of one or two of 64 names, many of them different.
pub fn draw_many_rows(random: &mut Random) -> Draft {
    let count = random.between(1, 240);
    let draw_row = |_| (0..random.between(1, 2)).map(|_| random.below(NAMES_LIMIT) as u8).collect();
    let rows = (0..count).map(draw_row).collect();
    Draft { names: draw_names(random, NAMES_LIMIT), class: draw_class(random), rows }
}

/// A row of each length, the last of them too long by one, and rows that are far too long, beside rows of a small book.
pub fn row_lengths(run: &mut Run) -> Result<(), Mismatch> {
    let mut book = draw_small_book(&mut run.random);
    book.names = draw_names(&mut run.random, book.names.len().max(2));
    book.rows.truncate(3);
    let names = run.random.between(1, book.names.len());
    for length in (0..=ROW_LIMIT + 1).chain(TOO_LONG) {
        let row = (0..length).map(|_| run.random.below(names) as u8).collect();
        book.rows.push(row);
        run.compare_build(&book.bytes())?;
        book.rows.pop();
    }
    Ok(())
}

pub fn damaged(run: &mut Run) -> Result<(), Mismatch> {
    let book = draw_small_book(&mut run.random).bytes();
    for input in damaged_everywhere(&book, &mut run.random) {
        run.compare_build(&input)?;
    }
    Ok(())
}

pub fn cut(run: &mut Run) -> Result<(), Mismatch> {
    let book = draw_small_book(&mut run.random).bytes();
    for length in 0..book.len() {
        run.compare_build(&book[..length])?;
    }
    Ok(())
}

pub fn moved(run: &mut Run) -> Result<(), Mismatch> {
    let book = draw_small_book(&mut run.random).bytes();
    for input in moved_fields(&book, &mut run.random) {
        run.compare_build(&input)?;
    }
    Ok(())
}
