//! Hill climbing for the books that cost the library most: a book is altered a little, and kept where it costs more.

use crate::book::{short_names, Book, Class, BOOK_ROWS, CLASSES, NAME_LIMIT, ROW_LIMIT};
use crate::cases;
use crate::measure::Effort;
use crate::random::Random;
use crate::sides::Sides;
use std::fs;
use std::time::{Duration, Instant, UNIX_EPOCH};

const TRY: Effort = Effort { time: Duration::ZERO, rounds: 3 };
const CONFIRM: Effort = Effort { time: Duration::from_millis(20), rounds: 20 };

/// After so many tries without a costlier book, the climb begins again elsewhere.
const PATIENCE: usize = 150;

/// A book and what it costs in memsets.
struct Found {
    book: Book,
    cost: f64,
}

struct Search {
    sides: Sides,
    random: Random,
}

/// Searches for so many seconds, the same time for each class, and keeps what is costlier than the book kept before.
pub fn run(seconds: u32) -> Result<(), String> {
    let mut search = Search { sides: Sides::new(), random: Random::new(seed()) };
    for class in CLASSES {
        let end = Instant::now() + Duration::from_secs(1) * seconds / CLASSES.len() as u32;
        let mut kept = cases::worst_found()?;
        let before = match kept.iter().find(|book| book.class == class) {
            Some(book) => search.sides.time_library(&book.bytes(), CONFIRM),
            None => 0.0,
        };
        let mut worst = before;
        // books kept under a longer limit are still a place to begin at
        kept.iter_mut().flat_map(|book| &mut book.rows).for_each(|row| row.truncate(ROW_LIMIT));
        let mut start = search.costliest(class, &kept);
        while Instant::now() < end {
            let found = search.climb(start, end)?;
            if found.cost > worst {
                worst = found.cost;
                keep(&found.book)?;
            }
            start = search.start(class, &kept);
        }
        println!("{:10}{before:10.1} memsets before, {worst:10.1} now", class.label());
    }
    Ok(())
}

/// Another at each run, so that a second search goes elsewhere.
fn seed() -> u64 {
    UNIX_EPOCH.elapsed().map_or(0, |time| time.as_nanos() as u64)
}

fn keep(book: &Book) -> Result<(), String> {
    let path = cases::worst_path(book.class);
    fs::write(&path, book.bytes()).map_err(|error| format!("{}: {error}", path.display()))
}

impl Search {
    /// The costliest in this class of the books that are kept for any class or timed.
    fn costliest(&mut self, class: Class, kept: &[Book]) -> Book {
        let mut worst = Found { book: cases::nearly_one_name().with_class(class), cost: 0.0 };
        let large = cases::large().map(|(_, book)| book);
        for book in kept.iter().chain(&large) {
            let book = book.with_class(class);
            let cost = self.sides.time_library(&book.bytes(), TRY);
            if cost > worst.cost {
                worst = Found { book, cost };
            }
        }
        worst.book
    }

    /// A book to begin with again: one that is kept for any class, or random rows.
    fn start(&mut self, class: Class, kept: &[Book]) -> Book {
        if kept.is_empty() || self.random.below(2) == 0 {
            return self.random_book(class);
        }
        kept[self.random.below(kept.len())].with_class(class)
    }

    fn random_book(&mut self, class: Class) -> Book {
        let names = 1 + self.random.below(12);
        let longest = 1 + self.random.below(ROW_LIMIT);
        let rows = (0..1 + self.random.below(64)).map(|_| self.random_row(names, longest)).collect();
        Book { names: short_names(names), class, rows }
    }

    fn random_row(&mut self, names: usize, longest: usize) -> Vec<u8> {
        let length = self.random.below(longest + 1);
        (0..length).map(|_| self.random.below(names) as u8).collect()
    }

    /// The costliest book that small changes lead to, until the time is up or nothing costlier comes.
    fn climb(&mut self, start: Book, end: Instant) -> Result<Found, String> {
        let book = self.fitted(start)?;
        let cost = self.sides.time_library(&book.bytes(), CONFIRM);
        let mut best = Found { book, cost };
        let mut tries = 0;
        while tries < PATIENCE && Instant::now() < end {
            tries += 1;
            let mut book = best.book.clone();
            for _ in 0..1 + self.random.below(3) {
                self.alter(&mut book);
            }
            let book = self.fitted(book)?;
            let bytes = book.bytes();
            if self.sides.time_library(&bytes, TRY) <= best.cost {
                continue;
            }
            let cost = self.sides.time_library(&bytes, CONFIRM);
            if cost > best.cost {
                best = Found { book, cost };
                tries = 0;
            }
        }
        Ok(best)
    }

    /// The book with rows cut until it is accepted. Stops the search where the implementations differ.
    fn fitted(&mut self, mut book: Book) -> Result<Book, String> {
        while self.sides.build(&book.bytes())?.0.refusal != 0 {
            let at = self.random.below(book.rows.len());
            if book.rows[at].pop().is_none() {
                book.rows.remove(at);
            }
        }
        Ok(book)
    }

    /// One small change.
    fn alter(&mut self, book: &mut Book) {
        let names = book.names.len();
        let at = self.random.below(book.rows.len());
        match self.random.below(8) {
            0 => self.alter_row(&mut book.rows[at], names),
            1 => self.repeat_part(&mut book.rows[at]),
            2 => {
                let length = self.random.below(book.rows[at].len() + 1);
                book.rows[at].truncate(length);
            }
            3 => {
                let mut row = book.rows[at].clone();
                self.alter_row(&mut row, names);
                add_row(book, row);
            }
            4 => {
                let from = self.random.below(book.rows.len());
                let tail = self.part(&book.rows[from].clone());
                extend(&mut book.rows[at], &tail);
            }
            5 => {
                let row = self.random_row(names, ROW_LIMIT);
                add_row(book, row);
            }
            6 if book.rows.len() > 1 => {
                book.rows.swap_remove(at);
            }
            _ => self.rename(book),
        }
    }

    /// A name replaced, put in or left out.
    fn alter_row(&mut self, row: &mut Vec<u8>, names: usize) {
        let name = self.random.below(names) as u8;
        let at = self.random.below(row.len() + 1);
        match self.random.below(3) {
            0 if at < row.len() => row[at] = name,
            1 if at < row.len() => {
                row.remove(at);
            }
            _ => {
                row.insert(at, name);
                row.truncate(ROW_LIMIT);
            }
        }
    }

    fn part(&mut self, row: &[u8]) -> Vec<u8> {
        let begin = self.random.below(row.len() + 1);
        let end = begin + self.random.below(row.len() - begin + 1);
        row[begin..end].to_vec()
    }

    fn repeat_part(&mut self, row: &mut Vec<u8>) {
        let part = self.part(row);
        for _ in 0..1 + self.random.below(4) {
            extend(row, &part);
        }
    }

    /// One name more, or one name written for another in every row.
    fn rename(&mut self, book: &mut Book) {
        let names = book.names.len();
        if names < NAME_LIMIT && self.random.below(4) == 0 {
            book.names = short_names(names + 1);
            return;
        }
        let (old, new) = (self.random.below(names) as u8, self.random.below(names) as u8);
        for name in book.rows.iter_mut().flatten() {
            if *name == old {
                *name = new;
            }
        }
    }
}

fn extend(row: &mut Vec<u8>, more: &[u8]) {
    row.extend_from_slice(more);
    row.truncate(ROW_LIMIT);
}

fn add_row(book: &mut Book, row: Vec<u8>) {
    if book.rows.len() < BOOK_ROWS {
        book.rows.push(row);
    }
}
