use super::{book, built};

fn distinct(rows: &[Vec<u8>]) -> usize {
    built(&book(&["a", "b"], None, rows)).unwrap().distinct
}

/// The number's eight binary digits.
fn row(number: u8) -> Vec<u8> {
    (0..8).map(|place| number >> place & 1).collect()
}

#[test]
fn of_forty_rows_thirty_are_copies() {
    let rows: Vec<Vec<u8>> = (0..40).map(|number| row(number % 10)).collect();
    assert_eq!(distinct(&rows), 10);
    assert_eq!(distinct(&rows[..10]), 10);
}

#[test]
fn copies_side_by_side_and_apart() {
    let (a, b) = (row(0), row(1));
    assert_eq!(distinct(&[a.clone(), a.clone(), b.clone(), b.clone()]), 2);
    assert_eq!(distinct(&[a.clone(), b.clone(), b, a]), 2);
}

#[test]
fn an_empty_row_is_a_row() {
    assert_eq!(distinct(&[vec![]]), 1);
    assert_eq!(distinct(&[vec![], vec![]]), 1);
    assert_eq!(distinct(&[vec![], vec![0]]), 2);
}

#[test]
fn a_beginning_of_another_row_is_a_row_of_its_own() {
    let rows = [vec![0], vec![0, 1], vec![0, 1, 0]];
    assert_eq!(distinct(&rows), 3);
    assert_eq!(distinct(&[&rows[2..], &rows[..2], &rows[..1]].concat()), 3);
}

#[test]
fn of_256_rows_one_and_all() {
    assert_eq!(distinct(&vec![row(3); 256]), 1);
    assert_eq!(distinct(&(0..=255).map(row).collect::<Vec<_>>()), 256);
}
