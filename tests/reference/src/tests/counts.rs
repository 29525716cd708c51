use super::{book, built};
use crate::counts::{count, with_counts, Counted, StateCounts};
use crate::fields::{read_table, Class};
use crate::random::Random;
use crate::refusal::Refusal;
use crate::table::State;
use crate::INPUT_LIMIT;

fn counted(book: &[u8]) -> Counted {
    with_counts(book, built(book).unwrap(), INPUT_LIMIT).unwrap()
}

fn counts_file(names: &[&str], class: Class, rows: &[Vec<u8>]) -> Vec<u8> {
    counted(&book(names, Some(class), rows)).counts
}

/// One name's context, so that the table is: 0 - lunch>1, then 1 + snack>2, then 2 + snack>2. Of four rows one ends after lunch. The arc
/// from 2 to 2 is passed once by each row of two snacks, which stands there twice, and twice by the row of three.
#[test]
fn a_row_that_passes_an_arc_twice_counts_two() {
    let rows = [vec![0], vec![0, 1, 1], vec![0, 1, 1], vec![0, 1, 1, 1]];
    let expected = [[5, 0, 4, 0, 0, 0, 4], [5, 0, 4, 0, 1, 0, 3], [5, 0, 4, 0, 3, 0, 4]].concat();
    assert_eq!(counts_file(&["lunch", "snack"], Class::Context { k: 1, h: 1 }, &rows), expected);
}

/// Worked day P6, with its first row twice: 0 - b>1 d>2, 1 - s>3, 2 - s>3, 3 - b>4 l>5, 4 +, 5 +.
#[test]
fn repeats_are_counted() {
    let rows = [vec![0, 3, 2], vec![1, 3, 2], vec![0, 3, 0], vec![0, 3, 2]];
    let expected: [&[u8]; 6] = [
        &[5, 0, 6, 0, 0, 0, 3, 0, 1],
        &[5, 0, 4, 0, 0, 0, 3],
        &[5, 0, 4, 0, 0, 0, 1],
        &[5, 0, 6, 0, 0, 0, 1, 0, 3],
        &[5, 0, 2, 0, 1],
        &[5, 0, 2, 0, 3],
    ];
    let names = ["breakfast", "dinner", "lunch", "snack"];
    assert_eq!(counts_file(&names, Class::Context { k: 2, h: 1 }, &rows), expected.concat());
}

#[test]
fn an_empty_row_ends_at_the_start() {
    assert_eq!(counts_file(&["a"], Class::DEFAULT, &[vec![], vec![]]), [5, 0, 2, 0, 2]);
}

#[test]
fn of_256_equal_rows_each_counts() {
    assert_eq!(counts_file(&["a"], Class::DEFAULT, &vec![vec![]; 256]), [5, 0, 2, 1, 0]);
    assert_eq!(counts_file(&["a"], Class::DEFAULT, &vec![vec![0]; 256]), [5, 0, 4, 0, 0, 1, 0, 5, 0, 2, 1, 0]);
}

/// After the first name each of 256 rows of 40 passes one arc 39 times: 9,984, which is 27 00.
#[test]
fn of_256_equal_rows_of_40() {
    let counts = counts_file(&["a"], Class::Context { k: 1, h: 1 }, &vec![vec![0; 40]; 256]);
    assert_eq!(counts, [5, 0, 4, 0, 0, 1, 0, 5, 0, 4, 1, 0, 0x27, 0]);
}

/// A row of 39 and rows of 40 make all states one, whose arc is passed 40 times by 255 rows and 39 times by one: 10,239, which is 27 FF.
/// Where all 256 rows have 40 entries of one name, no class joins the start with another state, so no arc is passed 10,240 times.
#[test]
fn the_largest_number() {
    let rows = [vec![vec![0; 39]], vec![vec![0; 40]; 255]].concat();
    assert_eq!(counts_file(&["a"], Class::LastNames { j: 0 }, &rows), [5, 0, 4, 1, 0, 0x27, 0xFF]);
}

#[test]
fn a_counts_output_too_short_gives_13() {
    let bytes = book(&["a"], None, &[vec![0]]);
    let of_room = |output| with_counts(&bytes, built(&bytes).unwrap(), output).map(|counted| counted.counts.len());
    assert_eq!(of_room(12), Ok(12));
    assert_eq!(of_room(11), Err(Refusal::OutputTooShort));
    assert_eq!(of_room(0), Err(Refusal::OutputTooShort));
}

/// Up to 12 rows of up to six of three names, some of them copies.
fn draw_rows(random: &mut Random) -> Vec<Vec<u8>> {
    let mut rows: Vec<Vec<u8>> = vec![];
    for _ in 0..random.between(1, 12) {
        let copied = random.once_in(3).then(|| random.choose(&rows).cloned()).flatten();
        let length = random.below(7);
        rows.push(copied.unwrap_or_else(|| (0..length).map(|_| random.below(3) as u8).collect()));
    }
    rows
}

/// What holds of the counts of rows over the states of their table.
fn laws_hold(states: &[State], rows: &[Vec<u8>], counts: &[StateCounts]) {
    let mut arrivals = vec![0; states.len()];
    arrivals[0] = rows.len();
    for (state, counted) in states.iter().zip(counts) {
        assert_eq!(state.arcs.len(), counted.passes.len());
        for (arc, passes) in state.arcs.iter().zip(&counted.passes) {
            assert!(*passes > 0, "an arc that no row passes");
            arrivals[arc.target] += passes;
        }
    }
    assert_eq!(states.len(), counts.len());
    for ((state, counted), arrived) in states.iter().zip(counts).zip(arrivals) {
        assert_eq!(arrived, counted.passes.iter().sum::<usize>() + counted.ends);
        assert_eq!(state.accepting, counted.ends > 0);
    }
    assert_eq!(counts.iter().map(|counted| counted.ends).sum::<usize>(), rows.len());
}

#[test]
fn the_laws_hold_and_order_does_not_matter() {
    let mut random = Random::new(5);
    let classes = [
        Class::DEFAULT,
        Class::Context { k: 1, h: 1 },
        Class::Context { k: 3, h: 2 },
        Class::SeenSet,
        Class::LastNames { j: 0 },
        Class::LastNames { j: 2 },
    ];
    for round in 0..600 {
        let mut rows = draw_rows(&mut random);
        let class = Some(classes[round % classes.len()]);
        let whole = counted(&book(&["a", "b", "c"], class, &rows));
        let states = read_table(&whole.built.bytes).unwrap().states;
        let counts = count(&states, &rows);
        laws_hold(&states, &rows, &counts);
        random.shuffle(&mut rows);
        assert_eq!(counted(&book(&["a", "b", "c"], class, &rows)), whole);
        rows.extend(rows.clone());
        let twice = |state: &StateCounts| StateCounts {
            ends: 2 * state.ends,
            passes: state.passes.iter().map(|passes| 2 * passes).collect(),
        };
        assert_eq!(count(&states, &rows), counts.iter().map(twice).collect::<Vec<_>>());
    }
}
