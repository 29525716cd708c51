//! What the calls of a run have come to.

use reference::counts::Counted;
use reference::fields::{read_book, read_table, split_field};
use reference::plan_rows::{PlanRows, Refused};
use reference::refusal::Refusal;
use reference::walk::{begins_admitted, plain_walk, Walked};
use reference::Built;
use std::collections::BTreeMap;

#[derive(Clone, Debug, Default)]
pub struct Counts {
    pub inputs: usize,
    /// How often each refusal was given, by its number, to a book, a table or a walk; at 0, how many calls were accepted.
    pub refused: [usize; 14],
    /// The same for builds with counts.
    pub counted_refused: [usize; 14],
    /// How many of these 13 were given where the table's output is long enough.
    pub counts_too_short: usize,
    /// The largest number that a counts file had.
    pub largest_number: u16,
    /// The same as `refused` for plans.
    pub plans_refused: [usize; 17],
    /// How many walks had each outcome, by its number.
    pub outcomes: [usize; 4],
    /// How many walks had another outcome, another beginning and other next names than arcs alone tell; and how many were over tables that
    /// admit no row.
    pub endings: [usize; 4],
    /// How many accepted builds joined states, for each class by its field's bytes.
    pub joined: BTreeMap<[u8; 3], usize>,
    /// The most states that the prefix tree of such a build had.
    pub largest_tree: usize,
    /// How many accepted builds had a row that is a copy of another.
    pub copies: usize,
    /// How many of them had more copies than different rows.
    pub most_copies: usize,
}

impl Counts {
    pub fn count_built(&mut self, book: &[u8], built: &Result<Built, Refusal>) {
        self.count_written(built);
        if let Ok(built) = built {
            if built.joins > 0 {
                let class = read_table(&built.bytes).expect("a built table can be read").class;
                *self.joined.entry(class.bytes()).or_default() += 1;
                self.largest_tree = self.largest_tree.max(built.states + built.joins);
            }
            let copies = read_book(book).expect("an accepted book can be read").rows.len() - built.distinct;
            self.copies += usize::from(copies > 0);
            self.most_copies += usize::from(copies > built.distinct);
        }
    }

    /// A build with counts; `fits` where the table alone would be built.
    pub fn count_counted(&mut self, counted: &Result<Counted, Refusal>, fits: bool) {
        self.inputs += 1;
        self.counted_refused[counted.as_ref().map_or_else(|refusal| usize::from(refusal.number()), |_| 0)] += 1;
        self.counts_too_short += usize::from(fits && counted.is_err());
        if let Ok(counted) = counted {
            self.largest_number = self.largest_number.max(largest_number(&counted.counts));
        }
    }

    /// A build, a rewriting or a listing.
    pub fn count_written<T>(&mut self, written: &Result<T, Refusal>) {
        self.inputs += 1;
        self.refused[written.as_ref().map_or_else(|refusal| usize::from(refusal.number()), |_| 0)] += 1;
    }

    pub fn count_walked(&mut self, table: &[u8], row: &[u8], walked: &Result<Walked, Refusal>) {
        self.inputs += 1;
        match walked {
            Ok(walked) => {
                self.refused[0] += 1;
                self.outcomes[walked.outcome as usize] += 1;
                self.count_endings(table, row, walked);
            }
            Err(refusal) => self.refused[usize::from(refusal.number())] += 1,
        }
    }

    fn count_endings(&mut self, table: &[u8], row: &[u8], walked: &Walked) {
        let table = read_table(table).expect("a table that is walked can be read");
        let plain = plain_walk(&table, row);
        self.endings[0] += usize::from(walked.outcome != plain.outcome);
        self.endings[1] += usize::from(walked.beginning != plain.beginning);
        self.endings[2] += usize::from(walked.next_names != plain.next_names);
        self.endings[3] += usize::from(!begins_admitted(&table, &[]));
    }

    pub fn count_rows(&mut self, read: &Result<PlanRows, Refused>) {
        self.inputs += 1;
        self.plans_refused[read.as_ref().map_or_else(|refused| usize::from(refused.refusal.number()), |_| 0)] += 1;
    }

    pub fn add(&mut self, more: &Counts) {
        self.inputs += more.inputs;
        self.refused.iter_mut().zip(more.refused).for_each(|(sum, count)| *sum += count);
        self.counted_refused.iter_mut().zip(more.counted_refused).for_each(|(sum, count)| *sum += count);
        self.counts_too_short += more.counts_too_short;
        self.largest_number = self.largest_number.max(more.largest_number);
        self.plans_refused.iter_mut().zip(more.plans_refused).for_each(|(sum, count)| *sum += count);
        self.outcomes.iter_mut().zip(more.outcomes).for_each(|(sum, count)| *sum += count);
        self.endings.iter_mut().zip(more.endings).for_each(|(sum, count)| *sum += count);
        self.largest_tree = self.largest_tree.max(more.largest_tree);
        self.copies += more.copies;
        self.most_copies += more.most_copies;
        for (class, count) in &more.joined {
            *self.joined.entry(*class).or_default() += count;
        }
    }
}

/// The largest number of a counts file.
fn largest_number(mut counts: &[u8]) -> u16 {
    let mut largest = 0;
    while !counts.is_empty() {
        let (field, rest) = split_field(counts).expect("a counts file consists of fields");
        largest = field.bytes.chunks(2).fold(largest, |largest, number| largest.max(u16::from_be_bytes([number[0], number[1]])));
        counts = rest;
    }
    largest
}
