//! Builds with counts, beside builds of the same books without.

use crate::bars::{Bar, Bars};
use crate::book::{fields, Book, CLASSES};
use crate::cases;
use crate::library::{self, Counted, COUNTS_BYTES};
use crate::measure::{Effort, Timer, Times};
use crate::sides::Lent;
use std::hint::black_box;

struct Counting {
    name: &'static str,
    class: String,
    book: Vec<u8>,
    /// How many rows the book has.
    rows: usize,
    bar: Bar,
    /// How many states the prefix tree and the table have.
    sizes: [u32; 2],
    /// Without counts, and with them.
    times: Times<2>,
}

pub struct Countings {
    countings: Vec<Counting>,
    plain: Lent,
    counted: Lent,
    counts: Vec<u8>,
    timer: Timer,
}

impl Countings {
    pub fn new() -> Countings {
        let mut countings = Vec::new();
        for class in CLASSES {
            countings.push(Counting::new("typical", &cases::typical().with_class(class), Bar::CountedTypical));
        }
        countings.push(Counting::new("typical, copied", &cases::copied(), Bar::CountedTypical));
        for (name, book) in cases::longest() {
            countings.extend(CLASSES.map(|class| Counting::new(name, &book.with_class(class), Bar::CountedLongest)));
        }
        Countings { countings, plain: Lent::new(), counted: Lent::new(), counts: vec![0; COUNTS_BYTES], timer: Timer::new() }
    }

    /// An error where a book is refused, or gives another table or other numbers with counts than without, or ends of more or fewer rows
    /// than it has.
    pub fn compare(&mut self) -> Result<(), String> {
        let Countings { countings, plain, counted, counts, .. } = self;
        countings.iter_mut().try_for_each(|counting| {
            counting.compare(plain, counted, counts).map_err(|what| format!("{} {}: {what}", counting.name, counting.class))
        })
    }

    pub fn time(&mut self, effort: Effort) {
        let Countings { countings, plain, counted, counts, timer } = self;
        for Counting { book, times, .. } in countings {
            let mut without = || {
                black_box(library::build(black_box(book), &mut plain.work, &mut plain.out));
            };
            let mut with = || {
                black_box(library::build_counted(black_box(book), &mut counted.work, &mut counted.out, counts));
            };
            *times = times.or_less(timer.time([&mut without, &mut with], effort));
        }
    }

    pub fn show(&self, bars: &mut Bars) {
        println!("\nbuilds without counts and with them, in memsets; ratio: with to without\n");
        let [case, class, rows, tree, states] = ["case", "class", "rows", "tree", "states"];
        let [without, with, ratio, memset] = ["without", "with", "ratio", "memset"];
        println!("{case:26}{class:10}{rows:>6}{tree:>6}{states:>8}{without:>10}{with:>9}{ratio:>8}{memset:>8}");
        for Counting { name, class, rows, sizes: [tree, states], bar, times, .. } in &self.countings {
            let [without, with] = times.in_memsets();
            let (ratio, memset) = (with / without, times.memset());
            println!("{name:26}{class:10}{rows:>6}{tree:>6}{states:>8}{without:10.1}{with:9.1}{ratio:8.2}{memset:8.0}");
            bars.take(*bar, ratio, &format!("{name} {class}"));
        }
    }
}

impl Counting {
    fn new(name: &'static str, book: &Book, bar: Bar) -> Counting {
        let (class, rows) = (book.class.label(), book.rows.len());
        Counting { name, class, book: book.bytes(), rows, bar, sizes: [0; 2], times: Times::NONE }
    }

    fn compare(&mut self, plain: &mut Lent, counted: &mut Lent, counts: &mut [u8]) -> Result<(), String> {
        let built = library::build(&self.book, &mut plain.work, &mut plain.out);
        let given = library::build_counted(&self.book, &mut counted.work, &mut counted.out, counts);
        let Counted { refusal, length, states, joins, distinct, counts_length } = given;
        if refusal != 0 || [length, states, joins, distinct] != [built.length, built.states, built.joins, built.distinct] {
            return Err(format!("without counts {built:?}, with them {given:?}"));
        }
        if plain.out[..length as usize] != counted.out[..length as usize] {
            return Err("the tables differ".to_string());
        }
        let ends_of = |numbers: &[u8]| usize::from(numbers[0]) * 256 + usize::from(numbers[1]);
        let ends: usize = fields(&counts[..counts_length as usize]).map(|(_, numbers)| ends_of(numbers)).sum();
        if ends != self.rows {
            return Err(format!("{ends} rows end in all states, of {} rows", self.rows));
        }
        self.sizes = [states + joins, states];
        Ok(())
    }
}
