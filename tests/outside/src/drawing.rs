//! Books, tables and rows drawn at random.

use reference::fields::{Class, CLASS, NAME, NAMES_LIMIT, NAME_LENGTH_LIMIT, ROW, ROWS_LIMIT, ROW_LIMIT};
use reference::random::Random;
use reference::table::{write_field, Arc, State, Table};
use std::collections::BTreeSet;

/// The most names' numbers in a small book's rows, so that its tree has at most 40 states.
pub const SMALL: usize = 39;

/// Lengths of rows that are far too long, some of which a byte takes for shorter ones.
pub const TOO_LONG: [usize; 4] = [ROW_LIMIT + 2, 64, 256, 256 + ROW_LIMIT];

/// A book before it is written. No class field is written where `class` is none.
#[derive(Clone, Debug)]
pub struct Draft {
    pub names: Vec<Vec<u8>>,
    pub class: Option<Class>,
    pub rows: Vec<Vec<u8>>,
}

impl Draft {
    pub fn bytes(&self) -> Vec<u8> {
        let mut bytes = vec![];
        for name in &self.names {
            write_field(&mut bytes, NAME, name);
        }
        if let Some(class) = self.class {
            write_field(&mut bytes, CLASS, &class.bytes());
        }
        for row in &self.rows {
            write_field(&mut bytes, ROW, row);
        }
        bytes
    }
}

/// Every class that a book can have, and none.
pub fn all_classes() -> Vec<Option<Class>> {
    let mut classes = vec![None, Some(Class::SeenSet)];
    classes.extend((0..=8).map(|j| Some(Class::LastNames { j })));
    for k in 1..=8 {
        classes.extend((1..=k).map(|h| Some(Class::Context { k, h })));
    }
    classes
}

pub fn draw_class(random: &mut Random) -> Option<Class> {
    let classes = all_classes();
    classes[random.below(classes.len())]
}

/// A book whose rows hold at most `entries` names' numbers together.
pub fn draw_book(random: &mut Random, class: Option<Class>, entries: usize) -> Draft {
    let most = if random.once_in(20) { NAMES_LIMIT } else { 5 };
    let count = random.between(1, most);
    let names = draw_names(random, count);
    let rows = draw_rows(random, names.len(), entries);
    Draft { names, class, rows }
}

pub fn draw_small_book(random: &mut Random) -> Draft {
    let class = draw_class(random);
    let entries = random.between(0, SMALL);
    draw_book(random, class, entries)
}

/// So many different names, ascending.
pub fn draw_names(random: &mut Random, count: usize) -> Vec<Vec<u8>> {
    let mut names = BTreeSet::new();
    while names.len() < count {
        let longest = if random.once_in(10) { NAME_LENGTH_LIMIT } else { 4 };
        let length = random.between(1, longest);
        names.insert(draw_name(random, length));
    }
    names.into_iter().collect()
}

/// A name, but that it may be too long.
pub fn draw_name(random: &mut Random, length: usize) -> Vec<u8> {
    const FIRST: usize = 54;
    const BYTES: &[u8] = b"ABCDEFGHIJKLMNOPQRSTUVWXYZabcdefghijklmnopqrstuvwxyz_:0123456789.-";
    let mut name = vec![BYTES[random.below(FIRST)]];
    name.extend((1..length).map(|_| BYTES[random.below(BYTES.len())]));
    name
}

/// At least one row. Rows share beginnings, ends and repeated parts, so that also long contexts come twice.
pub fn draw_rows(random: &mut Random, names: usize, entries: usize) -> Vec<Vec<u8>> {
    let most = if random.once_in(4) { names } else { names.min(4) };
    let mut letters: Vec<u8> = (0..names as u8).collect();
    random.shuffle(&mut letters);
    letters.truncate(random.between(1, most));
    let mut rows: Vec<Vec<u8>> = vec![];
    let mut left = entries;
    loop {
        let length = random.between(0, left.min(ROW_LIMIT));
        let row = draw_row(random, &letters, &rows, length);
        left -= row.len();
        rows.push(row);
        if left == 0 || rows.len() == ROWS_LIMIT || (entries <= SMALL && random.once_in(12)) {
            return rows;
        }
    }
}

/// A row of the given length: any letters, a part repeated, or a part of an earlier row before or behind any letters.
fn draw_row(random: &mut Random, letters: &[u8], earlier: &[Vec<u8>], length: usize) -> Vec<u8> {
    let mut row: Vec<u8> = (0..length).map(|_| letters[random.below(letters.len())]).collect();
    let other = random.choose(earlier).cloned().unwrap_or_default();
    let shared = random.between(0, length.min(other.len()));
    match random.below(4) {
        0 => {}
        1 => {
            let part = random.between(1, 3);
            (part..length).for_each(|place| row[place] = row[place - part]);
        }
        2 => row[..shared].copy_from_slice(&other[..shared]),
        _ => row[length - shared..].copy_from_slice(&other[other.len() - shared..]),
    }
    row
}

/// Adds so many copies of the rows, and shuffles all.
pub fn add_copies(random: &mut Random, rows: &mut Vec<Vec<u8>>, count: usize) {
    for _ in 0..count {
        rows.push(rows[random.below(rows.len())].clone());
    }
    random.shuffle(rows);
}

/// Adds so many rows that are others with their last entry altered, left out or followed by one more.
pub fn add_near_copies(random: &mut Random, names: usize, rows: &mut Vec<Vec<u8>>, count: usize) {
    for _ in 0..count {
        let mut row = rows[random.below(rows.len())].clone();
        let (shorter, longer) = [(true, false), (false, true), (true, true)][random.below(3)];
        if shorter {
            row.pop();
        }
        if longer && row.len() < ROW_LIMIT {
            row.push(random.below(names) as u8);
        }
        rows.push(row);
    }
}

/// A table that need not come from any book, of at most so many states, numbered first-met.
pub fn draw_table(random: &mut Random, states: usize) -> Table {
    let count = random.between(1, 6);
    let names = draw_names(random, count);
    let mut table = Table { names, class: draw_class(random).unwrap_or(Class::DEFAULT), states: vec![] };
    let mut met = 1;
    while table.states.len() < met {
        let mut arcs = vec![];
        for name in 0..table.names.len() {
            if random.once_in(2) {
                // state `met` is the one to be met next
                let target = if met < states && random.once_in(2) { met } else { random.below(met) };
                met = met.max(target + 1);
                arcs.push(Arc { name, target });
            }
        }
        table.states.push(State { accepting: random.once_in(2), arcs });
    }
    table
}

/// A row of the given length, mostly of the table's names, and mostly along its arcs.
pub fn draw_walk(random: &mut Random, table: &Table, length: usize) -> Vec<u8> {
    let mut state = &table.states[0];
    let mut row = vec![];
    for _ in 0..length {
        match random.choose(&state.arcs) {
            Some(arc) if !random.once_in(30) => {
                row.push(arc.name as u8);
                state = &table.states[arc.target];
            }
            _ => {
                let entries = table.names.len() + usize::from(random.once_in(10));
                row.push(random.below(entries) as u8);
            }
        }
    }
    row
}
