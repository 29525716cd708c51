//! Plans read by the library, beside expat with handlers that do nothing.

use crate::bars::{Bar, Bars};
use crate::expat::EXPAT;
use crate::library::{self, INPUT_LIMIT, WORK_BYTES};
use crate::measure::{Effort, Timer, Times};
use crate::plans::{self, Names, Plan};
use std::hint::black_box;

/// What the library's time for a plan is held against.
enum Against {
    /// Expat's time, by a bar.
    Expat(Bar),
    /// The library's time for the tag-dense plan at this place of the readings.
    TagDense(usize),
}

struct Reading {
    name: &'static str,
    plan: Plan,
    list: Vec<u8>,
    against: Against,
    /// How many rows the plan gives.
    rows: u32,
    /// Of the library and of expat; of nothing in its place, where the machine has none.
    times: Times<2>,
}

pub struct Readings {
    readings: Vec<Reading>,
    work: Vec<u8>,
    out: Vec<u8>,
    timer: Timer,
}

impl Readings {
    pub fn new() -> Readings {
        let readings = vec![
            Reading::new("plan of a clinic", plans::clinic(), Against::Expat(Bar::ClinicPlan)),
            Reading::new("tag-dense, 3 letters", plans::tag_dense(Names::Letters(3)), Against::Expat(Bar::DensePlan)),
            Reading::new("tag-dense, 6 letters", plans::tag_dense(Names::Letters(6)), Against::Expat(Bar::DensePlan)),
            Reading::new("tag-dense, one hash", plans::tag_dense(Names::OneHash), Against::Expat(Bar::DensePlan)),
            Reading::new("nested, 3 letters", plans::nested(Names::Letters(3)), Against::TagDense(1)),
            Reading::new("nested, 6 letters", plans::nested(Names::Letters(6)), Against::TagDense(2)),
            Reading::new("nested, one hash", plans::nested(Names::OneHash), Against::TagDense(3)),
        ];
        Readings { readings, work: vec![0; WORK_BYTES], out: vec![0; INPUT_LIMIT], timer: Timer::new() }
    }

    /// An error where the library refuses a plan, or expat does, or its tags give other rows.
    pub fn compare(&mut self) -> Result<(), String> {
        let Readings { readings, work, out, .. } = self;
        readings.iter_mut().try_for_each(|reading| reading.compare(work, out).map_err(|what| format!("{}: {what}", reading.name)))
    }

    pub fn time(&mut self, effort: Effort) {
        let Readings { readings, work, out, timer } = self;
        for reading in readings {
            reading.time(work, out, timer, effort);
        }
    }

    pub fn show(&self, bars: &mut Bars) {
        println!("\nreading a plan of 65,535 bytes, in memsets; ratio: library to expat, whose handlers do nothing");
        println!("to dense: library to library, a nested plan to the tag-dense plan with the same names\n");
        if EXPAT.is_none() {
            println!("this machine has no expat (Debian's package libexpat1-dev): plans are timed without it\n");
        }
        let [case, elements, rows, library] = ["case", "elements", "rows", "library"];
        let [expat, ratio, dense, memset] = ["expat", "ratio", "to dense", "memset"];
        println!("{case:26}{elements:>10}{rows:>6}{library:>10}{expat:>9}{ratio:>8}{dense:>10}{memset:>8}");
        for reading in &self.readings {
            let to_dense = match reading.against {
                Against::Expat(bar) => {
                    reading.hold_to_expat(bar, bars);
                    None
                }
                Against::TagDense(at) => {
                    let ratio = reading.nanoseconds() / self.readings[at].nanoseconds();
                    bars.take(Bar::NestedPlan, ratio, reading.name);
                    Some(ratio)
                }
            };
            reading.show(to_dense);
        }
    }
}

/// The figure with so many digits behind the point, or nothing.
fn figure(figure: Option<f64>, digits: usize) -> String {
    figure.map_or(String::new(), |figure| format!("{figure:.digits$}"))
}

impl Reading {
    fn new(name: &'static str, plan: Plan, against: Against) -> Reading {
        let list = plan.list();
        Reading { name, plan, list, against, rows: 0, times: Times::NONE }
    }

    fn compare(&mut self, work: &mut [u8], out: &mut [u8]) -> Result<(), String> {
        let given = library::read_rows(&self.plan.bytes, &self.list, self.plan.chosen, work, out);
        if given.refusal != 0 {
            return Err(format!("the library refuses the plan: {given:?}"));
        }
        self.rows = given.rows;
        let Some(expat) = EXPAT else {
            return Ok(());
        };
        match (expat.rows)(&self.plan) {
            None => Err("expat does not accept the plan".to_string()),
            Some(rows) if rows != out[..given.length as usize] => Err("expat's tags give other rows".to_string()),
            Some(_) => Ok(()),
        }
    }

    fn time(&mut self, work: &mut [u8], out: &mut [u8], timer: &mut Timer, effort: Effort) {
        let Reading { plan, list, times, .. } = self;
        let mut read = || {
            black_box(library::read_rows(black_box(&plan.bytes), list, plan.chosen, work, out));
        };
        let mut parse = || {
            black_box(EXPAT.map(|expat| (expat.parse)(black_box(&plan.bytes))));
        };
        *times = times.or_less(timer.time([&mut read, &mut parse], effort));
    }

    /// The library's time.
    fn nanoseconds(&self) -> f64 {
        let [library, _] = self.times.nanoseconds();
        library
    }

    /// The library's time to expat's, where the machine has expat.
    fn to_expat(&self) -> Option<f64> {
        let [library, expat] = self.times.nanoseconds();
        EXPAT.map(|_| library / expat)
    }

    fn show(&self, to_dense: Option<f64>) {
        let [library, expat] = self.times.in_memsets();
        let expat = figure(EXPAT.map(|_| expat), 1);
        let [ratio, to_dense] = [self.to_expat(), to_dense].map(|ratio| figure(ratio, 2));
        let elements = self.plan.bytes.windows(2).filter(|pair| pair[0] == b'<' && pair[1] != b'/').count();
        let (name, rows, memset) = (self.name, self.rows, self.times.memset());
        println!("{name:26}{elements:>10}{rows:>6}{library:10.1}{expat:>9}{ratio:>8}{to_dense:>10}{memset:8.0}");
    }

    fn hold_to_expat(&self, bar: Bar, bars: &mut Bars) {
        match self.to_expat() {
            Some(ratio) => bars.take(bar, ratio, self.name),
            None => bars.leave_out(bar, "this machine has no expat"),
        }
    }
}
