//! Books, and what is no book, listed by the library and by the listing program. PLANS_LISTING names another program than
//! target/bin/listing.

use crate::comparing::{Mismatch, Run};
use crate::damage::{any_bytes, damaged_at, damaged_everywhere};
use crate::drawing::{draw_book, draw_class, draw_small_book};
use reference::listing::listing;
use reference::{Lent, INPUT_LIMIT, WORK_BYTES};
use std::env;
use std::io::Write;
use std::path::PathBuf;
use std::process::{Command, Stdio};

/// A book of up to 100 names' numbers, listed in texts of each length about the listing's.
pub fn texts(run: &mut Run) -> Result<(), Mismatch> {
    let entries = run.random.between(0, 100);
    let class = draw_class(&mut run.random);
    let book = draw_book(&mut run.random, class, entries).bytes();
    let text = run.compare_list(&book)?.expect("a valid book");
    for output in [0, 1, text.len() / 2].into_iter().chain(text.len() - 3..text.len() + 3) {
        run.compare_list_lent(&book, Lent { work: WORK_BYTES, output })?;
    }
    Ok(())
}

/// A small book damaged at every byte.
pub fn damaged(run: &mut Run) -> Result<(), Mismatch> {
    let book = draw_small_book(&mut run.random).bytes();
    for input in damaged_everywhere(&book, &mut run.random) {
        run.compare_list(&input)?;
    }
    Ok(())
}

/// Working areas too short, just long enough and longer, for a book and for any bytes, with no text and with enough.
pub fn working_areas(run: &mut Run) -> Result<(), Mismatch> {
    let book = draw_small_book(&mut run.random).bytes();
    let other = any_bytes(&mut run.random);
    for work in [0, WORK_BYTES - 1, WORK_BYTES, WORK_BYTES + 1, 100_000] {
        for output in [0, INPUT_LIMIT] {
            run.compare_list_lent(&book, Lent { work, output })?;
            run.compare_list_lent(&other, Lent { work, output })?;
        }
    }
    Ok(())
}

/// A book of up to 100 names' numbers, the same damaged at one byte, and any bytes, given to the listing program.
pub fn books(run: &mut Run) -> Result<(), Mismatch> {
    let entries = run.random.between(0, 100);
    let class = draw_class(&mut run.random);
    let book = draw_book(&mut run.random, class, entries).bytes();
    compare(run, &book)?;
    let place = run.random.below(book.len());
    let damaged = damaged_at(&book, place, &mut run.random);
    let chosen = run.random.below(damaged.len());
    compare(run, &damaged[chosen])?;
    let bytes = any_bytes(&mut run.random);
    compare(run, &bytes)
}

fn compare(run: &mut Run, book: &[u8]) -> Result<(), Mismatch> {
    let expected = listing(book, &mut run.random);
    run.counts.inputs += 1;
    let printed = print_listing(book).map_err(|error| Mismatch::new("listing", error.to_string(), &[("input", book)]))?;
    if printed == expected {
        return Ok(());
    }
    let shown = |text: &[u8]| String::from_utf8_lossy(text).into_owned();
    let what = format!("it printed\n{}and the reference gives\n{}", shown(&printed), shown(&expected));
    Err(Mismatch::new("listing", what, &[("input", book)]))
}

/// What the program prints for these bytes on its standard input.
fn print_listing(book: &[u8]) -> std::io::Result<Vec<u8>> {
    let built = || PathBuf::from(env!("CARGO_MANIFEST_DIR")).join("../../target/bin/listing");
    let program = env::var_os("PLANS_LISTING").map_or_else(built, PathBuf::from);
    let mut child = Command::new(program).stdin(Stdio::piped()).stdout(Stdio::piped()).spawn()?;
    // dropped at the end of the statement, so that the program sees the end of its input
    child.stdin.take().expect("a pipe").write_all(book)?;
    Ok(child.wait_with_output()?.stdout)
}
