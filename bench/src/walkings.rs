//! Walks beside rewritings of the same tables: what telling the ways to an end costs beyond the reading of a table.

use crate::bars::{Bar, Bars};
use crate::book::{fields, put_field, ROW_LIMIT, STATE_LIMIT};
use crate::cases::{self, Filling};
use crate::library;
use crate::measure::{Effort, Timer, Times};
use crate::sides::{Lent, Sides};
use std::hint::black_box;

/// So many sweeps over the states of the zigzag table, at least, find all that have a way to an end.
const ZIGZAG_SWEEPS: usize = 200;

/// None, and ends to which few states, or not all, have a way.
const OTHER_ENDS: [Option<usize>; 4] = [None, Some(7), Some(100), Some(511)];

const ZIGZAGS: [(&str, Filling); 4] = [
    ("zigzag", Filling::Behind),
    ("zigzag, to the last two", Filling::LastTwo),
    ("zigzag, to the last", Filling::Last),
    ("zigzag, to itself", Filling::Itself),
];

const STATE_MARK: u8 = 4;

struct Walking {
    name: &'static str,
    table: Vec<u8>,
    row: Vec<u8>,
    /// How many sweeps over the states, upwards and downwards, find all that have a way to an end; and how many they are at least.
    sweeps: [usize; 2],
    least_sweeps: usize,
    bar: Bar,
    /// Of a rewriting, and of a walk.
    times: Times<2>,
}

pub struct Walkings {
    walkings: Vec<Walking>,
    lent: Lent,
    timer: Timer,
}

impl Walkings {
    /// An error where the library refuses to build the first table.
    pub fn new() -> Result<Walkings, String> {
        let mut lent = Lent::new();
        let book = cases::unjoined();
        let built = library::build(&book.bytes(), &mut lent.work, &mut lent.out);
        if built.refusal != 0 {
            return Err(format!("unjoined rows: {built:?}"));
        }
        let table = lent.out[..built.length as usize].to_vec();
        let mut walkings = vec![Walking::new("as built", table, book.rows[0].clone(), 0, Bar::BuiltWalk)];
        for (name, filling) in ZIGZAGS {
            let (zigzag, way) = cases::zigzag(filling);
            walkings.push(Walking::new(name, zigzag, way, ZIGZAG_SWEEPS, Bar::ZigzagWalk));
        }
        Ok(Walkings { walkings, lent, timer: Timer::new() })
    }

    /// An error where a table is not accepted with 512 states, where the others walk otherwise than the library, over it or over the
    /// same with other ends, where a walk is not of all 40 names, or where fewer sweeps do than are wanted.
    pub fn compare(&mut self, sides: &mut Sides) -> Result<(), String> {
        let Walkings { walkings, lent, .. } = self;
        walkings
            .iter_mut()
            .try_for_each(|walking| walking.compare(sides, lent).map_err(|what| format!("{}: {what}", walking.name)))
    }

    pub fn time(&mut self, effort: Effort) {
        let Walkings { walkings, lent, timer } = self;
        let mut walking_work = vec![0; library::WORK_BYTES];
        for Walking { table, row, times, .. } in walkings {
            let mut rewrite = || {
                black_box(library::rewrite(black_box(table), &mut lent.work, &mut lent.out));
            };
            let mut walk = || {
                black_box(library::walk(black_box(table), black_box(row), &mut walking_work));
            };
            *times = times.or_less(timer.time([&mut rewrite, &mut walk], effort));
        }
    }

    pub fn show(&self, bars: &mut Bars) {
        println!("\nwalks of 40 names and rewritings of the same tables of 512 states, in memsets; ratio: walk to rewriting");
        println!("up, down: how many sweeps over the states would find all that have a way to an end\n");
        let [case, bytes, up, down, rewriting] = ["case", "bytes", "up", "down", "rewriting"];
        let [walk, ratio, memset] = ["walk", "ratio", "memset"];
        println!("{case:26}{bytes:>8}{up:>6}{down:>6}{rewriting:>11}{walk:>9}{ratio:>8}{memset:>8}");
        for Walking { name, table, sweeps: [up, down], bar, times, .. } in &self.walkings {
            let [rewriting, walk] = times.in_memsets();
            let (bytes, ratio, memset) = (table.len(), walk / rewriting, times.memset());
            println!("{name:26}{bytes:>8}{up:>6}{down:>6}{rewriting:11.1}{walk:9.1}{ratio:8.2}{memset:8.0}");
            bars.take(*bar, ratio, name);
        }
    }
}

impl Walking {
    fn new(name: &'static str, table: Vec<u8>, row: Vec<u8>, least_sweeps: usize, bar: Bar) -> Walking {
        let states = states_of(&table);
        let up: Vec<usize> = (0..states.len()).collect();
        let down: Vec<usize> = up.iter().rev().copied().collect();
        let sweeps = [up, down].map(|turn| sweeps(&states, &turn));
        Walking { name, table, row, sweeps, least_sweeps, bar, times: Times::NONE }
    }

    fn compare(&mut self, sides: &mut Sides, lent: &mut Lent) -> Result<(), String> {
        let rewritten = library::rewrite(&self.table, &mut lent.work, &mut lent.out);
        if rewritten.refusal != 0
            || rewritten.states as usize != STATE_LIMIT
            || lent.out[..rewritten.length as usize] != self.table
        {
            return Err(format!("the table is not rewritten as one of 512 states: {rewritten:?}"));
        }
        let walked = sides.walk(&self.table, &self.row)?;
        if walked.refusal != 0 || walked.walked as usize != ROW_LIMIT {
            return Err(format!("not all 40 names are walked: {walked:?}"));
        }
        for only in OTHER_ENDS {
            let table = with_end(&self.table, only);
            for length in 0..=self.row.len() {
                sides.walk(&table, &self.row[..length]).map_err(|what| format!("with the end {only:?}: {what}"))?;
            }
        }
        if self.sweeps.iter().any(|&sweeps| sweeps < self.least_sweeps) {
            return Err(format!("{:?} sweeps do, of {} that are wanted", self.sweeps, self.least_sweeps));
        }
        Ok(())
    }
}

/// The table, but that no state accepts, or one only.
fn with_end(table: &[u8], only: Option<usize>) -> Vec<u8> {
    let mut altered = Vec::new();
    let mut states = 0;
    for (mark, body) in fields(table) {
        let mut body = body.to_vec();
        if mark == STATE_MARK {
            body[0] = u8::from(only == Some(states));
            states += 1;
        }
        put_field(&mut altered, mark, &body);
    }
    altered
}

/// Of each state of a table whether it accepts, and where its arcs lead.
fn states_of(table: &[u8]) -> Vec<(bool, Vec<usize>)> {
    let target = |arc: &[u8]| usize::from(arc[1]) * 256 + usize::from(arc[2]);
    let bodies = fields(table).filter(|(mark, _)| *mark == STATE_MARK);
    bodies.map(|(_, body)| (body[0] == 1, body[1..].chunks_exact(3).map(target).collect())).collect()
}

/// How many sweeps, taking the states in this turn, find a state with a way to an end, that is an arc to one that is found.
fn sweeps(states: &[(bool, Vec<usize>)], turn: &[usize]) -> usize {
    let mut found: Vec<bool> = states.iter().map(|(accepts, _)| *accepts).collect();
    let mut sweeps = 0;
    loop {
        let before = found.clone();
        for &state in turn {
            found[state] = found[state] || states[state].1.iter().any(|&target| found[target]);
        }
        if found == before {
            return sweeps;
        }
        sweeps += 1;
    }
}
