//! The kinds of checks. Each is a function that runs one case: it draws what it needs and compares some calls.

mod books;
mod counted;
mod endings;
mod languages;
mod listings;
#[cfg(expat)]
mod parsers;
mod plan_sizes;
mod plans;
mod sizes;
mod tables;
mod walks;

use crate::comparing::{Mismatch, Run};

pub struct Kind {
    pub what: &'static str,
    /// How many of a thousand inputs are of this kind, at least.
    pub share: usize,
    pub case: fn(&mut Run) -> Result<(), Mismatch>,
}

const fn kind(what: &'static str, share: usize, case: fn(&mut Run) -> Result<(), Mismatch>) -> Kind {
    Kind { what, share, case }
}

pub const KINDS: &[Kind] = &[
    kind("books of all 46 classes and with no class field, built", 130, books::every_class),
    kind("large books built, their tables rewritten", 30, books::large),
    kind("books with copies of rows, and rows that differ in one entry, built and listed", 20, books::copies),
    kind("books with a row of each length from 0 to 41 and of some more, built", 15, books::row_lengths),
    kind("books damaged at every byte, built", 180, books::damaged),
    kind("books cut at every length, built", 40, books::cut),
    kind("books with fields swapped, repeated, left out and shuffled, built", 40, books::moved),
    kind("tables of all 46 classes, rewritten", 40, tables::rewritten),
    kind("tables damaged at every byte, rewritten", 130, tables::damaged),
    kind("tables cut at every length, rewritten", 40, tables::cut),
    kind("tables with fields swapped, repeated, left out and shuffled, rewritten", 30, tables::moved),
    kind("rows walked", 100, walks::rows),
    kind("rows of each length from 0 to 41 and of some more, walked", 40, walks::row_lengths),
    kind("rows walked over damaged, cut and moved tables", 60, walks::damaged),
    kind("rows walked over tables with states that lead to no end", 60, endings::rows),
    kind("rows walked over tables of up to 512 states and 65,535 bytes with one end far off, or none", 10, endings::long_ways),
    kind("days tapped by the next names, over tables with states that lead to no end", 40, endings::tapped),
    kind("rows walked over such tables with a bit altered, and working areas of 0 to 100,000 bytes", 40, endings::altered),
    kind("rows walked over built tables: what arcs alone tell", 40, endings::built),
    kind("any bytes built, rewritten and walked", 30, sizes::any_input),
    kind("builds with outputs of each length from 0 to one more than the table", 35, sizes::build_outputs),
    kind("rewritings with outputs of each length from 0 to one more than the table", 35, sizes::rewrite_outputs),
    kind("working areas of 0 to 100,000 bytes", 15, sizes::working_areas),
    kind("inputs of 65,535 and 65,536 bytes", 3, sizes::longest_inputs),
    kind("limits of names, rows, states and trees, met and passed", 5, sizes::limits),
    kind("books listed in texts of lengths about the listing's", 20, listings::texts),
    kind("books damaged at every byte, listed", 30, listings::damaged),
    kind("books and any bytes listed with working areas of 0 to 100,000 bytes", 5, listings::working_areas),
    kind("books, damaged books and any bytes, listed by the listing program", 5, listings::books),
    kind("books of all 46 classes and with no class field, built with counts", 40, counted::every_class),
    kind("large books built with counts, with outputs of lengths about what is written", 10, counted::large),
    kind("books with rows shuffled and rows repeated: which tables and counts are the same", 20, counted::bags),
    kind("books damaged at every byte, built with counts", 40, counted::damaged),
    kind("books cut at every length, and with fields moved, built with counts", 20, counted::cut_and_moved),
    kind("builds with table and counts in outputs of each length from 0 to one more than needed", 30, counted::outputs),
    kind("builds with counts, and working areas of 0 to 100,000 bytes", 10, counted::working_areas),
    kind("books of 256 rows and of 40 entries, and trees and books too large, built with counts", 5, counted::limits),
    kind("plans, every name of the list chosen; list and rows together a book", 80, plans::valid),
    kind("plans damaged at every byte", 200, plans::damaged),
    kind("plans with every byte value at one place", 100, plans::every_byte),
    kind("plans cut at every length", 80, plans::cut),
    kind("beginnings of plans with every ending of up to three of seven bytes", 100, plans::endings),
    kind("plans with 14, 15 and 16 planted before and behind one another", 120, plans::planted),
    kind("plans with markup and bytes that other XML has, or only plans have", 20, plans::foreign),
    kind("tags at fault at the byte after their names, with every byte there", 50, plans::ties),
    kind("plans with lists damaged, cut and moved, and every chosen number", 60, plans::lists),
    kind("plans with outputs of each length from 0 to one more than the rows", 60, plan_sizes::outputs),
    kind("plans with working areas of 0 to 100,000 bytes", 10, plan_sizes::working_areas),
    kind("plans and lists of 65,535 and 65,536 bytes", 5, plan_sizes::longest),
    kind("plans with names of 31 to 33 bytes", 15, plan_sizes::name_lengths),
    kind("plans of 14 to 18 levels", 50, plan_sizes::depths),
    kind("plans of 255 to 257 rows, of 39 to 41 entries and far more, and of 256 rows of 40", 10, plan_sizes::row_limits),
    kind("plans with lists of 1 to 65 names", 10, plan_sizes::name_counts),
    #[cfg(expat)]
    kind("plans that expat accepts too: the same rows", 30, parsers::accepted),
    #[cfg(expat)]
    kind("damaged plans that expat judges as the library does", 80, parsers::judged),
    kind("books with the same names, class and set of rows: the same bytes and numbers", 30, languages::same_rows),
    kind("pairs of books: rows admitted, equal tables admit the same", 150, languages::pairs),
    kind("books with rows added that their table admits: the same rows admitted", 150, languages::grown),
];
