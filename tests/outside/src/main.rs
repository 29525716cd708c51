//! Compares plans_build, plans_build_counted, plans_rewrite, plans_walk, plans_list and plans_read_rows of the static library with the
//! reference, over generated inputs. The same seed and count give the same inputs; --seconds goes on with fresh seeds. A mismatch names
//! its seed: --seed gives it again; --stop-at-mismatch leaves out what would come after one. The last line is `N passed, M failed`, N
//! and M counting kinds of checks.

mod buffers;
mod comparing;
mod counts;
mod damage;
mod drawing;
mod ends;
#[cfg(expat)]
mod expat;
mod kinds;
mod library;
mod options;
mod planning;

use comparing::Run;
use counts::Counts;
use kinds::KINDS;
use options::Options;
use reference::random::Random;
use std::process::ExitCode;
use std::sync::atomic::{AtomicUsize, Ordering};
use std::sync::Mutex;
use std::time::Instant;

/// Each kind's inputs of a round are drawn in this many parts, each from a seed of its own, so that they do not depend on which
/// thread takes them.
const PARTS: usize = 8;
const THREADS: usize = 2;

/// The reference reads elements inside one another by calls inside one another, and a plan has room for 21,845 of them.
const STACK: usize = 1 << 26;

/// Rounds after the first have this part of its inputs, so that each kind gets its share of the time.
const LATER_ROUNDS: usize = 20;

/// How many classes there are: 36 of contexts, the seen set, 9 of last names.
const CLASSES: usize = 46;

/// The refusals of plans, and 0 for those that are accepted.
const PLAN_REFUSALS: [usize; 13] = [0, 1, 2, 3, 4, 5, 6, 7, 9, 13, 14, 15, 16];

/// The refusals of builds with counts, and 0 for those that are accepted.
const COUNTED_REFUSALS: [usize; 12] = [0, 1, 2, 3, 4, 5, 6, 7, 8, 9, 10, 13];

/// No counts file has a larger number (tests/reference/src/tests/counts.rs).
const LARGEST_NUMBER: u16 = 10_239;

/// What has come of one kind of check.
#[derive(Default)]
struct Tally {
    counts: Counts,
    mismatch: Option<String>,
}

fn main() -> ExitCode {
    let options = match Options::from_arguments(std::env::args().skip(1)) {
        Ok(options) => options,
        Err(usage) => {
            eprintln!("{usage}");
            return ExitCode::FAILURE;
        }
    };
    let tallies: Vec<Mutex<Tally>> = KINDS.iter().map(|_| Mutex::default()).collect();
    let start = Instant::now();
    // the first round is run whole, whatever the time
    run_round(options.count, options.seed, &tallies, || options.stops && is_mismatch(&tallies));
    let mut rounds = 1;
    while start.elapsed() < options.duration && !is_mismatch(&tallies) {
        run_round(options.count / LATER_ROUNDS, options.seed + rounds, &tallies, || start.elapsed() >= options.duration);
        rounds += 1;
    }
    println!("seeds {} to {}, {} seconds", options.seed, options.seed + rounds - 1, start.elapsed().as_secs());
    report(&options, tallies.into_iter().map(|tally| tally.into_inner().expect("tally")).collect())
}

/// Whether some kind has a mismatch.
fn is_mismatch(tallies: &[Mutex<Tally>]) -> bool {
    tallies.iter().any(|tally| tally.lock().expect("tally").mismatch.is_some())
}

/// Runs the parts of every kind, until it is time to stop.
fn run_round(count: usize, seed: u64, tallies: &[Mutex<Tally>], stops: impl Fn() -> bool + Sync) {
    let next = AtomicUsize::new(0);
    let work = || loop {
        let part = next.fetch_add(1, Ordering::Relaxed);
        if part >= KINDS.len() * PARTS || stops() {
            return;
        }
        run_part(count, seed, part, &tallies[part / PARTS]);
    };
    std::thread::scope(|scope| {
        for _ in 0..THREADS {
            std::thread::Builder::new().stack_size(STACK).spawn_scoped(scope, work).expect("a thread");
        }
    });
}

/// Runs cases of one kind up to its part's share of the inputs, or to a mismatch.
fn run_part(count: usize, seed: u64, part: usize, tally: &Mutex<Tally>) {
    let kind = &KINDS[part / PARTS];
    let mut run = Run::new(Random::new(seed).draw() ^ Random::new(part as u64).draw());
    let mut mismatch = None;
    while mismatch.is_none() && run.counts.inputs * PARTS < promised(count, kind.share) {
        mismatch = (kind.case)(&mut run).err();
    }
    let mut tally = tally.lock().expect("tally");
    tally.counts.add(&run.counts);
    if let Some(mismatch) = mismatch {
        tally.mismatch.get_or_insert(format!("seed {seed}: {mismatch}"));
    }
}

/// How many inputs of a kind there are to be in a round.
fn promised(count: usize, share: usize) -> usize {
    (count * share).div_ceil(1000)
}

/// Says what was run and what was found.
fn report(options: &Options, tallies: Vec<Tally>) -> ExitCode {
    let mut all = Counts::default();
    let mut results = vec![];
    for (kind, tally) in KINDS.iter().zip(tallies) {
        println!("{:>9} inputs: {}", tally.counts.inputs, kind.what);
        let least = promised(options.count, kind.share);
        let too_few = (tally.counts.inputs < least).then(|| format!("fewer inputs than the {least} promised"));
        results.push((kind.what, tally.mismatch.or(too_few)));
        all.add(&tally.counts);
    }
    println!("{:>9} inputs: all kinds; {} or more were promised", all.inputs, options.count);
    results.extend(coverage(options, &all));
    for (what, wrong) in &results {
        if let Some(wrong) = wrong {
            println!("FAILED: {what}: {wrong}");
        }
    }
    let failed = results.iter().filter(|(_, wrong)| wrong.is_some()).count();
    println!("{} passed, {failed} failed", results.len() - failed);
    ExitCode::from(u8::from(failed > 0))
}

/// Whether the inputs were enough, and of all sorts. Says what each came to.
fn coverage(options: &Options, all: &Counts) -> Vec<(&'static str, Option<String>)> {
    let least_joined = all.joined.values().min().unwrap_or(&0);
    println!("accepted: {}; refusals 1 to 13: {:?}", all.refused[0], &all.refused[1..]);
    println!("counted: {}; refusals 1 to 13: {:?}", all.counted_refused[0], &all.counted_refused[1..]);
    println!("13 for the counts alone: {}; largest number of a counts file: {}", all.counts_too_short, all.largest_number);
    println!("plans accepted: {}; refusals 1 to 16: {:?}", all.plans_refused[0], &all.plans_refused[1..]);
    #[cfg(not(expat))]
    println!("this machine has no expat: plans are not compared with it");
    println!("walks admitted, on the way, stopped: {:?}", &all.outcomes[1..]);
    let [outcomes, beginnings, next_names, admits_none] = all.endings;
    println!("told otherwise than by arcs alone: {outcomes} outcomes, {beginnings} beginnings, {next_names} sets of next names");
    println!("walks over tables that admit no row: {admits_none}");
    println!("classes with builds that joined states: {}, in each {least_joined} or more such builds", all.joined.len());
    println!("largest prefix tree of such a build: {} states", all.largest_tree);
    println!("builds of books with copies of rows: {}; of more copies than different rows: {}", all.copies, all.most_copies);
    let says = |wrong: bool, what: &str| wrong.then(|| what.to_string());
    vec![
        ("all inputs", says(all.inputs < options.count, "fewer than promised")),
        ("every refusal is given", says(all.refused.contains(&0), "one is not")),
        (
            "every refusal of a build with counts is given",
            says(COUNTED_REFUSALS.iter().any(|&refusal| all.counted_refused[refusal] == 0), "one is not"),
        ),
        ("13 is given for the counts alone", says(all.counts_too_short == 0, "it is not")),
        ("the largest number of a counts file is met", says(all.largest_number < LARGEST_NUMBER, "it is not")),
        (
            "every refusal of a plan is given",
            says(PLAN_REFUSALS.iter().any(|&refusal| all.plans_refused[refusal] == 0), "one is not"),
        ),
        ("every outcome is given", says(all.outcomes[1..].contains(&0), "one is not")),
        (
            "states that lead to no end alter outcomes, beginnings and next names",
            says(all.endings.contains(&0), "one of them they do not"),
        ),
        ("every class has builds that joined states", says(all.joined.len() < CLASSES, "one has none")),
        ("books with copies of rows are built", says(all.copies == 0, "none is")),
        ("books of more copies than different rows are built", says(all.most_copies == 0, "none is")),
    ]
}
