use super::{book, built, many_names};
use crate::fields::{Class, STATES_LIMIT};
use crate::refusal::Refusal;

fn with_class(k: u8, h: u8) -> Result<usize, Refusal> {
    built(&book(&["a"], Some(Class::Context { k, h }), &[vec![0]])).map(|built| built.states)
}

#[test]
fn sixty_four_names_pass_and_65_give_7() {
    let names = many_names(65);
    let names: Vec<&str> = names.iter().map(String::as_str).collect();
    assert_eq!(built(&book(&names[..64], None, &[vec![63]])).unwrap().states, 2);
    assert_eq!(built(&book(&names, None, &[vec![63]])), Err(Refusal::TooMany));
}

#[test]
fn a_row_of_40_passes_and_41_gives_9() {
    assert!(built(&book(&["a"], None, &[vec![0; 40]])).is_ok());
    assert_eq!(built(&book(&["a"], None, &[vec![0; 41]])), Err(Refusal::BadRow));
}

#[test]
fn rows_to_256_pass_and_257_give_7() {
    assert!(built(&book(&["a"], None, &vec![vec![0]; 256])).is_ok());
    assert_eq!(built(&book(&["a"], None, &vec![vec![0]; 257])), Err(Refusal::TooMany));
}

#[test]
fn k_to_8_passes_and_other_settings_give_8() {
    assert_eq!(with_class(8, 1), Ok(2));
    assert_eq!(with_class(8, 8), Ok(2));
    assert_eq!(with_class(9, 1), Err(Refusal::BadClass));
    assert_eq!(with_class(2, 0), Err(Refusal::BadClass));
    assert_eq!(with_class(2, 3), Err(Refusal::BadClass));
    assert_eq!(with_class(0, 0), Err(Refusal::BadClass));
}

#[test]
fn last_names_to_8_pass() {
    let last = |j| built(&book(&["a"], Some(Class::LastNames { j }), &[vec![0]]));
    assert!(last(8).is_ok());
    assert_eq!(last(9), Err(Refusal::BadClass));
}

/// Thirteen rows with different first names, then all of name 13; twelve of 40, and the last of them `last` long.
fn thirteen_rows(last: usize) -> Vec<Vec<u8>> {
    let row = |first: u8, length| [vec![first], vec![13; length - 1]].concat();
    (0..13).map(|first| row(first, if first == 12 { last } else { 40 })).collect()
}

#[test]
fn a_tree_of_512_states_passes_and_513_give_10() {
    let names = many_names(14);
    let names: Vec<&str> = names.iter().map(String::as_str).collect();
    let passes = built(&book(&names, Some(Class::Context { k: 8, h: 8 }), &thirteen_rows(31))).unwrap();
    assert_eq!(passes.states + passes.joins, STATES_LIMIT);
    assert_eq!(built(&book(&names, None, &thirteen_rows(32))), Err(Refusal::TreeTooLarge));
}
