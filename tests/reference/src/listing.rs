//! The listing of a book as text.

use crate::fields::read_table;
use crate::random::Random;
use crate::refusal::Refusal;
use crate::{build, Built, Lent, INPUT_LIMIT, WORK_BYTES};

/// The text that the listing program prints: the listing, or `refused` and the refusal's number.
pub fn listing(book: &[u8], random: &mut Random) -> Vec<u8> {
    match list(book, Lent { work: WORK_BYTES, output: INPUT_LIMIT }, random) {
        Ok(text) => text,
        Err(refusal) => format!("refused {}\n", refusal.number()).into_bytes(),
    }
}

/// The listing of a book, for a text of the output's length.
pub fn list(book: &[u8], lent: Lent, random: &mut Random) -> Result<Vec<u8>, Refusal> {
    let text = listing_of_built(&build(book, Lent { output: INPUT_LIMIT, ..lent }, random)?);
    if text.len() > lent.output {
        return Err(Refusal::OutputTooShort);
    }
    Ok(text)
}

fn listing_of_built(built: &Built) -> Vec<u8> {
    let table = read_table(&built.bytes).expect("a built table can be read");
    let mut text = format!("states {} joins {} distinct {}\n", built.states, built.joins, built.distinct).into_bytes();
    for (number, state) in table.states.iter().enumerate() {
        let sign = if state.accepting { '+' } else { '-' };
        text.extend(format!("{number} {sign}").into_bytes());
        for arc in &state.arcs {
            text.push(b' ');
            text.extend(&table.names[arc.name]);
            text.extend(format!(">{}", arc.target).into_bytes());
        }
        text.push(b'\n');
    }
    text
}
