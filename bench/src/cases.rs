//! The books and tables that are timed.

use crate::book::{put_field, put_names, short_names, Book, Class, BOOK_ROWS, CLASSES, NAME_LIMIT, ROW_LIMIT, STATE_LIMIT};
use crate::library::INPUT_LIMIT;
use crate::random::Random;
use std::collections::HashSet;
use std::fs;
use std::path::{Path, PathBuf};

/// The names of typical days, in ascending order.
const DAY_NAMES: [&str; 12] =
    ["bread", "breakfast", "coffee", "dessert", "dinner", "fruit", "lunch", "salad", "snack", "soup", "tea", "yoghurt"];

/// The days that typical days vary, as numbers of the names above.
const SKELETONS: [&[u8]; 5] = [
    &[1, 2, 5, 8, 9, 6, 3, 10, 8, 4],
    &[1, 10, 0, 8, 6, 7, 5, 8, 4, 0, 3],
    &[1, 2, 11, 5, 6, 3, 2, 9, 4],
    &[11, 5, 10, 8, 7, 6, 8, 9, 4, 7, 3],
    &[1, 2, 8, 9, 6, 5, 10, 8, 4, 10],
];

/// How many names of a skeleton a day alters: one of these.
const EDITS: [usize; 5] = [0, 0, 0, 1, 2];

/// Rows whose prefix tree has no more states than asked for.
struct Gathered {
    rows: Vec<Vec<u8>>,
    beginnings: HashSet<Vec<u8>>,
    limit: usize,
}

impl Gathered {
    fn new(limit: usize) -> Gathered {
        Gathered { rows: Vec::new(), beginnings: HashSet::from([Vec::new()]), limit }
    }

    fn is_full(&self) -> bool {
        self.beginnings.len() == self.limit || self.rows.len() == BOOK_ROWS
    }

    /// Adds the row if its states fit.
    fn add(&mut self, row: &[u8]) {
        let new: Vec<Vec<u8>> =
            (1..=row.len()).map(|end| row[..end].to_vec()).filter(|beginning| !self.beginnings.contains(beginning)).collect();
        if self.beginnings.len() + new.len() <= self.limit {
            self.beginnings.extend(new);
            self.rows.push(row.to_vec());
        }
    }
}

/// A skeleton, often with one or two names left out, put in or replaced.
fn varied_day(random: &mut Random) -> Vec<u8> {
    let mut day = SKELETONS[random.below(SKELETONS.len())].to_vec();
    for _ in 0..EDITS[random.below(EDITS.len())] {
        let at = random.below(day.len());
        let name = random.below(DAY_NAMES.len()) as u8;
        match random.below(3) {
            0 => {
                day.remove(at);
            }
            1 => day.insert(at, name),
            _ => day[at] = name,
        }
    }
    day
}

fn day_book(rows: Vec<Vec<u8>>) -> Book {
    let names = DAY_NAMES.iter().map(|name| name.as_bytes().to_vec()).collect();
    Book { names, class: Class::Context(2, 1), rows }
}

/// 40 days.
pub fn typical() -> Book {
    let mut random = Random::new(1);
    day_book((0..40).map(|_| varied_day(&mut random)).collect())
}

/// How often each day stands in the book of copied days.
const COPIED: usize = 6;

/// The same 40 days again and again, so that most are copies.
pub fn copied() -> Book {
    let days = typical().rows;
    day_book((0..COPIED).flat_map(|_| days.clone()).collect())
}

/// Varied days with a prefix tree of so many states.
pub fn typical_of(states: usize) -> Book {
    let mut random = Random::new(2);
    let mut gathered = Gathered::new(states);
    while !gathered.is_full() {
        gathered.add(&varied_day(&mut random));
    }
    day_book(gathered.rows)
}

/// Random rows of up to 24 of so many names, with a prefix tree of 510 states.
pub fn random_rows(names: usize) -> Book {
    let mut random = Random::new(names as u64);
    let mut gathered = Gathered::new(510);
    while !gathered.is_full() {
        let length = 1 + random.below(24);
        let row: Vec<u8> = (0..length).map(|_| random.below(names) as u8).collect();
        gathered.add(&row);
    }
    Book { names: short_names(names), class: Class::Context(2, 1), rows: gathered.rows }
}

/// Rows as long as they may be, each one name of its own and then one name that they share: 512 states, so that the last is shorter.
pub fn nearly_one_name() -> Book {
    let mut rows: Vec<Vec<u8>> = Vec::new();
    let mut left = STATE_LIMIT - 1;
    while left > 0 {
        let mut row = vec![0; left.min(ROW_LIMIT)];
        left -= row.len();
        row[0] = 1 + rows.len() as u8;
        rows.push(row);
    }
    Book { names: short_names(1 + rows.len()), class: Class::Context(2, 1), rows }
}

/// Rows as long as they may be with different first names, and else of names drawn from all: of their 512 states (8,8) joins none.
pub fn unjoined() -> Book {
    let mut random = Random::new(4);
    let mut rows: Vec<Vec<u8>> = Vec::new();
    let mut left = STATE_LIMIT - 1;
    while left > 0 {
        let mut row: Vec<u8> = (0..left.min(ROW_LIMIT)).map(|_| random.below(NAME_LIMIT) as u8).collect();
        left -= row.len();
        row[0] = rows.len() as u8;
        rows.push(row);
    }
    Book { names: short_names(NAME_LIMIT), class: Class::Context(8, 8), rows }
}

/// The books of 510 and 512 states, with what they are called.
pub fn large() -> [(&'static str, Book); 4] {
    [
        ("random rows, 10 names", random_rows(10)),
        ("random rows, 3 names", random_rows(3)),
        ("random rows, 2 names", random_rows(2)),
        ("nearly one name", nearly_one_name()),
    ]
}

/// Books of as many rows as there may be, each as long as may be, with what they are called: rows that differ in their last two entries;
/// rows of which there are twelve different ones; and one row, again and again.
pub fn longest() -> [(&'static str, Book); 3] {
    let mut random = Random::new(3);
    let mut draw = |length: usize| (0..length).map(|_| random.below(NAME_LIMIT) as u8).collect::<Vec<u8>>();
    let first = draw(ROW_LIMIT - 2);
    let different = |number: usize| [&first[..], &[(number / NAME_LIMIT) as u8, (number % NAME_LIMIT) as u8]].concat();
    let twelve: Vec<Vec<u8>> = (0..12).map(|number| [vec![number], draw(ROW_LIMIT - 1)].concat()).collect();
    [
        ("256 different rows of 40", (0..BOOK_ROWS).map(different).collect()),
        ("256 rows of 40, of 12", (0..BOOK_ROWS).map(|number| twelve[number % 12].clone()).collect()),
        ("256 equal rows of 40", vec![draw(ROW_LIMIT); BOOK_ROWS]),
    ]
    .map(|(name, rows)| (name, Book { names: short_names(NAME_LIMIT), class: Class::Context(2, 1), rows }))
}

/// Where the search keeps the worst book of a class.
pub fn worst_path(class: Class) -> PathBuf {
    Path::new(env!("CARGO_MANIFEST_DIR")).join("books").join(format!("{}.book", class.file_label()))
}

/// The worst books that the search has kept, none for a class that it has not come to.
pub fn worst_found() -> Result<Vec<Book>, String> {
    let mut books = Vec::new();
    for path in CLASSES.map(worst_path) {
        if path.exists() {
            let bytes = fs::read(&path).map_err(|error| format!("{}: {error}", path.display()))?;
            books.push(Book::read(&bytes));
        }
    }
    Ok(books)
}

/// A table of one name in which each of 512 states leads to the next, the last to itself.
pub fn chain_table() -> Vec<u8> {
    let mut table = vec![1, 0, 1, b's', 2, 0, 3, 0, 2, 1];
    for state in 0..STATE_LIMIT {
        let target = (state + 1).min(STATE_LIMIT - 1) as u16;
        let [high, low] = target.to_be_bytes();
        table.extend_from_slice(&[4, 0, 4, u8::from(state + 1 == STATE_LIMIT), 0, high, low]);
    }
    table
}

/// The state with the one end of the zigzag table.
const ZIGZAG_END: usize = 260;

/// Where the arcs of the zigzag table lead that are on no way to the end: each to any state behind it, to the last two in turn, to the
/// last, or to itself.
#[derive(Clone, Copy)]
pub enum Filling {
    Behind,
    LastTwo,
    Last,
    Itself,
}

/// A table of 512 states and 64 names with as many arcs as fit, and a row of 40 names over it. The first eight states meet all others,
/// which have one way to the end only: state 259 to 260, which accepts, 261 to 259, 258 to 261, 262 to 258 and so on. Their other arcs
/// lead to themselves or to states behind them in this order. So a sweep over the states, in either direction, finds two more with a
/// way to an end.
pub fn zigzag(filling: Filling) -> (Vec<u8>, Vec<u8>) {
    let firsts = (STATE_LIMIT - 1).div_ceil(NAME_LIMIT);
    let mut order: Vec<usize> = (firsts..STATE_LIMIT).collect();
    order.sort_by_key(|&state| if state < ZIGZAG_END { 2 * (ZIGZAG_END - state) - 1 } else { 2 * (state - ZIGZAG_END) });
    let mut table = Vec::new();
    put_names(&mut table, &short_names(NAME_LIMIT));
    put_field(&mut table, 2, &Class::Context(2, 1).settings());
    let mut arcs: Vec<Vec<usize>> =
        (0..firsts).map(|first| (1 + first * NAME_LIMIT..STATE_LIMIT).take(NAME_LIMIT).collect()).collect();
    arcs.resize(STATE_LIMIT, Vec::new());
    let mut room = (INPUT_LIMIT - table.len() - 4 * STATE_LIMIT) / 3 - (STATE_LIMIT - 1);
    let mut random = Random::new(5);
    for (place, &state) in order.iter().enumerate() {
        let count = room / (order.len() - place);
        room -= count;
        let mut fill = |number: usize| match filling {
            Filling::Behind => order[place + random.below(order.len() - place)],
            Filling::LastTwo => order[order.len() - 1 - number % 2],
            Filling::Last => order[order.len() - 1],
            Filling::Itself => state,
        };
        arcs[state] = (0..count).map(&mut fill).collect();
        if place > 0 {
            arcs[state][count - 1] = order[place - 1];
        }
    }
    for (state, targets) in arcs.iter().enumerate() {
        let mut body = vec![u8::from(state == ZIGZAG_END)];
        for (name, &target) in targets.iter().enumerate() {
            body.push(name as u8);
            body.extend_from_slice(&(target as u16).to_be_bytes());
        }
        put_field(&mut table, 4, &body);
    }
    (table, way_on(&arcs))
}

/// A row of 40 names: the last arc of each state, from the start on.
fn way_on(arcs: &[Vec<usize>]) -> Vec<u8> {
    let mut state = 0;
    let mut row = Vec::new();
    for _ in 0..ROW_LIMIT {
        row.push(arcs[state].len() as u8 - 1);
        state = arcs[state][arcs[state].len() - 1];
    }
    row
}
