//! The worked days of docs/SCOPE.md, its example, its edges, how many rows differ, how often each way is used, states with no way to an
//! end, the refusals it numbers, and its readings of plans.

mod counts;
mod different_rows;
mod edges;
mod endings;
mod examples;
mod impossible;
mod open_steps;
mod plans;
mod refusals;
mod worked_days;

use crate::fields::{Class, CLASS, NAME, ROW};
use crate::random::Random;
use crate::refusal::Refusal;
use crate::table::write_field;
use crate::{build, Built, Lent, INPUT_LIMIT, WORK_BYTES};

const ENOUGH: Lent = Lent { work: WORK_BYTES, output: INPUT_LIMIT };

/// The book's bytes; no class field where `class` is none.
fn book(names: &[&str], class: Option<Class>, rows: &[Vec<u8>]) -> Vec<u8> {
    let mut bytes = vec![];
    for name in names {
        write_field(&mut bytes, NAME, name.as_bytes());
    }
    if let Some(class) = class {
        write_field(&mut bytes, CLASS, &class.bytes());
    }
    for row in rows {
        write_field(&mut bytes, ROW, row);
    }
    bytes
}

fn built(book: &[u8]) -> Result<Built, Refusal> {
    build(book, ENOUGH, &mut Random::new(1))
}

/// Distinct names, ascending.
fn many_names(count: usize) -> Vec<String> {
    (0..count).map(|number| format!("n{number:02}")).collect()
}
