use super::{book, built, ENOUGH};
use crate::fields::{CLASS, NAME, ROW, STATE};
use crate::random::Random;
use crate::refusal::Refusal;
use crate::refusal::Refusal::*;
use crate::table::write_field;
use crate::walk::walk;
use crate::{build, rewrite, Lent, INPUT_LIMIT, WORK_BYTES};

fn fields(fields: &[(u8, &[u8])]) -> Vec<u8> {
    let mut bytes = vec![];
    for (mark, content) in fields {
        write_field(&mut bytes, *mark, content);
    }
    bytes
}

fn build_refusal(list: &[(u8, &[u8])]) -> Option<Refusal> {
    built(&fields(list)).err()
}

fn rewrite_refusal(list: &[(u8, &[u8])]) -> Option<Refusal> {
    rewrite(&fields(list), ENOUGH).err()
}

#[test]
fn sizes_are_judged_first() {
    let long = vec![0xFF; INPUT_LIMIT + 1];
    assert_eq!(built(&long), Err(BadSizes));
    assert_eq!(built(&long[1..]), Err(CutOff));
    let short = Lent { work: WORK_BYTES - 1, ..ENOUGH };
    assert_eq!(build(&[], short, &mut Random::new(1)), Err(BadSizes));
    assert_eq!(rewrite(&[], short), Err(BadSizes));
    assert_eq!(walk(&[], &[], WORK_BYTES - 1), Err(BadSizes));
}

#[test]
fn a_field_past_the_end_comes_before_its_mark() {
    assert_eq!(built(&[9]), Err(CutOff));
    assert_eq!(built(&[9, 0]), Err(CutOff));
    assert_eq!(built(&[9, 0, 1]), Err(CutOff));
    assert_eq!(built(&[9, 0, 0]), Err(Misplaced));
}

#[test]
fn marks_have_their_places() {
    assert_eq!(build_refusal(&[(CLASS, &[1, 0, 0])]), Some(Misplaced));
    assert_eq!(build_refusal(&[(ROW, &[])]), Some(Misplaced));
    assert_eq!(build_refusal(&[(NAME, b"a"), (STATE, &[1])]), Some(Misplaced));
    assert_eq!(build_refusal(&[(NAME, b"a"), (ROW, &[]), (NAME, b"b")]), Some(Misplaced));
    assert_eq!(build_refusal(&[(NAME, b"a"), (CLASS, &[1, 0, 0]), (CLASS, &[1, 0, 0])]), Some(Misplaced));
    assert_eq!(rewrite_refusal(&[(NAME, b"a"), (STATE, &[1])]), Some(Misplaced));
    assert_eq!(rewrite_refusal(&[(NAME, b"a"), (CLASS, &[1, 0, 0]), (ROW, &[])]), Some(Misplaced));
}

#[test]
fn the_input_ends_too_early() {
    assert_eq!(build_refusal(&[]), Some(Unfinished));
    assert_eq!(build_refusal(&[(NAME, b"a")]), Some(Unfinished));
    assert_eq!(build_refusal(&[(NAME, b"a"), (CLASS, &[1, 0, 0])]), Some(Unfinished));
    assert_eq!(rewrite_refusal(&[]), Some(Unfinished));
    assert_eq!(rewrite_refusal(&[(NAME, b"a"), (CLASS, &[1, 0, 0])]), Some(Unfinished));
}

#[test]
fn names_by_bytes_then_by_order() {
    for wrong in [&b""[..], b"1", b".a", b"-", b"a b", b"a\x80", &[b'a'; 33]] {
        assert_eq!(build_refusal(&[(NAME, wrong)]), Some(BadName));
    }
    for right in [&b"_"[..], b":", b"Z9.-_:", &[b'a'; 32]] {
        assert_eq!(build_refusal(&[(NAME, right), (ROW, &[0])]), None);
    }
    assert_eq!(build_refusal(&[(NAME, b"b"), (NAME, b"a")]), Some(NameOrder));
    assert_eq!(build_refusal(&[(NAME, b"a"), (NAME, b"a")]), Some(NameOrder));
    assert_eq!(build_refusal(&[(NAME, b"ab"), (NAME, b"a")]), Some(NameOrder));
    assert_eq!(build_refusal(&[(NAME, b"b"), (NAME, b"1")]), Some(BadName));
}

#[test]
fn classes_by_length_and_value() {
    for wrong in [&[][..], &[0, 1], &[0, 1, 1, 0], &[1, 1, 0], &[1, 0, 1], &[2, 9, 0], &[2, 0, 1], &[3, 0, 0]] {
        assert_eq!(build_refusal(&[(NAME, b"a"), (CLASS, wrong)]), Some(BadClass));
    }
}

#[test]
fn states_by_their_bytes() {
    for wrong in [&[][..], &[2], &[0, 0], &[0, 0, 0], &[0, 2, 0, 0], &[0, 1, 0, 0, 0, 0, 0], &[0, 1, 0, 0, 1, 0, 0]] {
        assert_eq!(rewrite_refusal(&[(NAME, b"a"), (NAME, b"b"), (CLASS, &[1, 0, 0]), (STATE, wrong)]), Some(BadState));
    }
}

#[test]
fn a_513th_state_comes_before_its_bytes() {
    let mut list: Vec<(u8, &[u8])> = vec![(NAME, b"a"), (CLASS, &[1, 0, 0])];
    list.extend([(STATE, &[0][..]); 512]);
    assert_eq!(rewrite_refusal(&list), Some(BadNumbering));
    list.push((STATE, &[2]));
    assert_eq!(rewrite_refusal(&list), Some(TooMany));
}

#[test]
fn states_are_numbered_first_met() {
    let numbering = |states: &[&[u8]]| {
        let mut list: Vec<(u8, &[u8])> = vec![(NAME, b"a"), (NAME, b"b"), (CLASS, &[1, 0, 0])];
        list.extend(states.iter().map(|&state| (STATE, state)));
        rewrite_refusal(&list)
    };
    assert_eq!(numbering(&[&[0, 0, 0, 1, 1, 0, 2], &[1], &[1]]), None);
    assert_eq!(numbering(&[&[0, 0, 0, 2, 1, 0, 1], &[1], &[1]]), Some(BadNumbering));
    assert_eq!(numbering(&[&[0, 0, 0, 1], &[1], &[1]]), Some(BadNumbering));
    assert_eq!(numbering(&[&[0, 0, 0, 1]]), Some(BadNumbering));
    assert_eq!(numbering(&[&[0], &[1, 0, 0, 1]]), Some(BadNumbering));
    assert_eq!(numbering(&[&[0, 0, 1, 0], &[1]]), Some(BadNumbering));
}

#[test]
fn an_output_one_byte_short() {
    let book = book(&["a"], None, &[vec![0]]);
    let length = built(&book).unwrap().bytes.len();
    let exact = Lent { output: length, ..ENOUGH };
    let short = Lent { output: length - 1, ..ENOUGH };
    assert!(build(&book, exact, &mut Random::new(1)).is_ok());
    assert_eq!(build(&book, short, &mut Random::new(1)), Err(OutputTooShort));
    let table = built(&book).unwrap().bytes;
    assert!(rewrite(&table, exact).is_ok());
    assert_eq!(rewrite(&table, short), Err(OutputTooShort));
}

#[test]
fn a_walk_judges_its_table_before_its_row() {
    let table = built(&book(&["a"], None, &[vec![0]])).unwrap().bytes;
    assert_eq!(walk(&table, &[1], WORK_BYTES), Err(BadRow));
    assert_eq!(walk(&table, &[0; 41], WORK_BYTES), Err(BadRow));
    assert!(walk(&table, &[0; 40], WORK_BYTES).is_ok());
    assert_eq!(walk(&table[..table.len() - 1], &[1], WORK_BYTES), Err(CutOff));
}
