use super::{built, ENOUGH};
use crate::listing::{list, listing};
use crate::random::Random;
use crate::refusal::Refusal;
use crate::{rewrite, Built, Lent, Rewritten};

const BOOK: &str = "01 00 05 73 6E 61 63 6B 02 00 03 00 01 01 03 00 02 00 00";
const TABLE: &str = "01 00 05 73 6E 61 63 6B 02 00 03 00 01 01 04 00 04 00 00 00 01 04 00 04 01 00 00 01";

fn bytes(hexadecimal: &str) -> Vec<u8> {
    hexadecimal.split(' ').map(|byte| u8::from_str_radix(byte, 16).expect("two digits")).collect()
}

#[test]
fn the_example_book_gives_the_example_table() {
    assert_eq!(built(&bytes(BOOK)), Ok(Built { bytes: bytes(TABLE), states: 2, joins: 1, distinct: 1 }));
}

#[test]
fn the_example_table_is_rewritten() {
    assert_eq!(rewrite(&bytes(TABLE), ENOUGH), Ok(Rewritten { bytes: bytes(TABLE), states: 2 }));
}

#[test]
fn the_example_book_is_listed() {
    let text = listing(&bytes(BOOK), &mut Random::new(1));
    assert_eq!(text, b"states 2 joins 1 distinct 1\n0 - snack>1\n1 + snack>1\n");
}

#[test]
fn a_text_as_long_as_the_listing_passes_and_one_shorter_gives_13() {
    let list_in = |output| list(&bytes(BOOK), Lent { output, ..ENOUGH }, &mut Random::new(1)).map(|text| text.len());
    assert_eq!(list_in(52), Ok(52));
    assert_eq!(list_in(51), Err(Refusal::OutputTooShort));
}

#[test]
fn empty_input_is_listed_as_refused() {
    assert_eq!(listing(&[], &mut Random::new(1)), b"refused 4\n");
}

#[test]
fn a_state_without_arcs_is_listed_without_a_space_at_its_end() {
    let book = bytes("01 00 01 61 03 00 00");
    assert_eq!(listing(&book, &mut Random::new(1)), b"states 1 joins 0 distinct 1\n0 +\n");
}
