//! The bench: every case compared and timed, growth, walks beside rewritings, counts, plans, stack, and the bars.

use crate::bars::{Bar, Bars};
use crate::book::{Book, Class, CLASSES, ROW_LIMIT};
use crate::cases;
use crate::countings::Countings;
use crate::measure::{Effort, Times};
use crate::readings::Readings;
use crate::sides::Sides;
use crate::stack;
use crate::walkings::Walkings;
use std::time::Duration;

const EFFORT: Effort = Effort { time: Duration::from_millis(20), rounds: 10 };

/// All cases are timed so often in turn, so that a busy spell of the machine does not fall on all of one.
const PASSES: usize = 3;

const GROWTH: [usize; 4] = [64, 128, 256, 512];

const TYPICAL: &str = "typical";

const COPIED: &str = "typical, copied";

enum Input {
    Book(Vec<u8>),
    Walk { table: Vec<u8>, row: Vec<u8> },
}

struct Case {
    name: &'static str,
    class: String,
    input: Input,
    /// The bars that the library's time is held against.
    bars: Vec<Bar>,
    /// How many states the prefix tree and the table have.
    sizes: Option<[u32; 2]>,
    times: Times<3>,
}

/// Runs everything; true where every bar is met.
pub fn run() -> Result<bool, String> {
    let mut sides = Sides::new();
    let mut bars = Bars::new();
    let mut timed = builds()?;
    timed.extend(walks(&mut sides)?);
    let mut growth = growth();
    let mut walkings = Walkings::new()?;
    let mut countings = Countings::new();
    let mut readings = Readings::new();
    for case in timed.iter_mut().chain(&mut growth) {
        case.compare(&mut sides)?;
    }
    walkings.compare(&mut sides)?;
    countings.compare()?;
    readings.compare()?;
    for _ in 0..PASSES {
        for case in timed.iter_mut().chain(&mut growth) {
            case.time(&mut sides);
        }
        walkings.time(EFFORT);
        countings.time(EFFORT);
        readings.time(EFFORT);
    }
    show_cases(&timed, &mut bars);
    hold_copied(&timed, &mut bars);
    show_growth(&growth);
    walkings.show(&mut bars);
    countings.show(&mut bars);
    readings.show(&mut bars);
    show_stack(&mut bars);
    Ok(bars.show())
}

fn builds() -> Result<Vec<Case>, String> {
    let mut builds = Vec::new();
    for class in CLASSES {
        let bars: &[Bar] = match class {
            Class::Context(2, 1) => &[Bar::Typical, Bar::TypicalDefault],
            _ => &[Bar::Typical],
        };
        builds.push(Case::build(TYPICAL, &cases::typical().with_class(class), bars));
    }
    builds.push(Case::build(COPIED, &cases::copied(), &[]));
    for (name, book) in cases::large() {
        builds.extend(CLASSES.map(|class| Case::build(name, &book.with_class(class), &[Bar::Large])));
    }
    for book in cases::worst_found()? {
        builds.push(Case::build("worst found", &book, &[Bar::Worst]));
    }
    Ok(builds)
}

fn walks(sides: &mut Sides) -> Result<[Case; 2], String> {
    let days = cases::typical();
    let (_, table) = sides.build(&days.bytes())?;
    Ok([
        Case::walk("walk of 10, typical", table.to_vec(), days.rows[0].clone(), &[]),
        Case::walk("walk of 40, 512 states", cases::chain_table(), vec![0; ROW_LIMIT], &[Bar::Walk]),
    ])
}

/// Typical days, for each class with prefix trees of all sizes.
fn growth() -> Vec<Case> {
    let books = GROWTH.map(cases::typical_of);
    let of_class = |class| books.each_ref().map(|book| Case::build("growth", &book.with_class(class), &[]));
    CLASSES.into_iter().flat_map(of_class).collect()
}

impl Case {
    fn build(name: &'static str, book: &Book, bars: &[Bar]) -> Case {
        let (class, input) = (book.class.label(), Input::Book(book.bytes()));
        Case { name, class, input, bars: bars.to_vec(), sizes: None, times: Times::NONE }
    }

    fn walk(name: &'static str, table: Vec<u8>, row: Vec<u8>, bars: &[Bar]) -> Case {
        let (class, input) = (String::new(), Input::Walk { table, row });
        Case { name, class, input, bars: bars.to_vec(), sizes: None, times: Times::NONE }
    }

    /// What the library gives, or an error where one of the others gives something else, or where it is a refusal, which would be
    /// timed as if it were a result.
    fn compare(&mut self, sides: &mut Sides) -> Result<(), String> {
        let compared = match &self.input {
            Input::Book(book) => {
                sides.build(book).map(|(built, _)| (built.refusal, Some([built.states + built.joins, built.states])))
            }
            Input::Walk { table, row } => sides.walk(table, row).map(|walked| (walked.refusal, None)),
        };
        let accepted = compared.and_then(|(refusal, sizes)| match refusal {
            0 => Ok(sizes),
            _ => Err(format!("refusal {refusal}")),
        });
        self.sizes = accepted.map_err(|what| format!("{} {}: {what}", self.name, self.class))?;
        Ok(())
    }

    fn time(&mut self, sides: &mut Sides) {
        let times = match &self.input {
            Input::Book(book) => sides.time_builds(book, EFFORT),
            Input::Walk { table, row } => sides.time_walks(table, row, EFFORT),
        };
        self.times = self.times.or_less(times);
    }
}

fn show_cases(timed: &[Case], bars: &mut Bars) {
    println!("library, maps, arrays: the least time of a call, in memsets of 65,536 bytes; memset: in ns");
    println!("ratio: library to maps, whose memory is made in the call; arrays: memory kept between calls\n");
    let head = ["case", "class", "tree", "states", "library", "maps", "ratio", "arrays", "memset"];
    let [case, class, tree, states, library, maps, ratio, arrays, memset] = head;
    println!("{case:26}{class:10}{tree:>6}{states:>8}{library:>10}{maps:>9}{ratio:>8}{arrays:>9}{memset:>8}");
    for case in timed {
        let [library, maps, arrays] = case.times.in_memsets();
        let ratio = library / maps;
        let [tree, states] = case.sizes.map_or([String::new(), String::new()], |sizes| sizes.map(|size| size.to_string()));
        let (name, class, memset) = (case.name, &case.class, case.times.memset());
        println!("{name:26}{class:10}{tree:>6}{states:>8}{library:10.1}{maps:9.1}{ratio:8.2}{arrays:9.1}{memset:8.0}");
        let of = format!("{name} {class}");
        for &bar in &case.bars {
            bars.take(bar, library, &of);
        }
        bars.take(Bar::Ratio, ratio, &of);
    }
}

/// The copied days against the same days once, of the same class.
fn hold_copied(timed: &[Case], bars: &mut Bars) {
    let copied = timed.iter().find(|case| case.name == COPIED).expect("the copied days are timed");
    let once = timed.iter().find(|case| case.name == TYPICAL && case.class == copied.class).expect("so are the days once");
    let [copied_cost, once_cost] = [copied, once].map(|case| case.times.in_memsets()[0]);
    bars.take(Bar::Copied, copied_cost / once_cost, &format!("{COPIED} {}", copied.class));
}

fn show_growth(growth: &[Case]) {
    println!("\ngrowth, typical days: the library in memsets, by states of the prefix tree\n");
    println!("{:10}{}", "class", GROWTH.map(|states| format!("{states:>9}")).concat());
    for cases in growth.chunks_exact(GROWTH.len()) {
        let library = cases.iter().map(|case| format!("{:9.1}", case.times.in_memsets()[0]));
        println!("{:10}{}", cases[0].class, library.collect::<String>());
    }
}

fn show_stack(bars: &mut Bars) {
    println!("\nstack of a call in bytes, without that of an empty thread\n");
    for (bar, call, bytes) in stack::calls() {
        println!("{call:44}{bytes:8}");
        bars.take(bar, bytes as f64 / 1024.0, &call);
    }
}
