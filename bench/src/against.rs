//! Builds of the typical days, and a walk over a built table of 512 states, by this library and by another one, an earlier one as a rule,
//! in one run: both are loaded as shared libraries, compared, and timed in turn.

use crate::book::{Class, CLASSES};
use crate::cases;
use crate::clock::nanoseconds;
use crate::library::{self, Built, Call, Walked};
use crate::sides::Lent;
use std::ffi::{c_char, c_void, CStr, CString};
use std::fs;
use std::hint::black_box;
use std::mem::transmute;
use std::os::unix::ffi::OsStrExt;

const RUNS: usize = 5;

/// So many calls are timed as one, by each library in turn, and the least of so many such times counts.
const CALLS: usize = 8;
const BLOCKS: usize = 500;

/// What the median of the runs may be at most, of their geometric means over the classes.
const LIMIT: f64 = 1.05;

const RTLD_NOW: i32 = 2;

extern "C" {
    fn dlopen(file: *const c_char, flags: i32) -> *mut c_void;
    fn dlsym(library: *mut c_void, name: *const c_char) -> *mut c_void;
    fn dlerror() -> *const c_char;
}

/// What plans_build of version 1 gives back: no `distinct`, and in registers.
#[repr(C)]
#[derive(Clone, Copy)]
struct FirstBuilt {
    refusal: u8,
    length: u32,
    states: u32,
    joins: u32,
}

/// plans_build of a shared library, by the layout of its result.
enum Build {
    First(Call<FirstBuilt>),
    Now(Call<Built>),
}

/// plans_walk, whose result every version lays out so.
type Walk = unsafe extern "C" fn(*const u8, usize, *const u8, usize, *mut u8, usize) -> Walked;

struct Library {
    build: Build,
    walk: Walk,
    lent: Lent,
}

impl Library {
    fn open(path: &str) -> Result<Library, String> {
        let bytes = fs::read(path).map_err(|error| format!("{path}: {error}"))?;
        let version = version(&bytes).ok_or_else(|| format!("{path}: no libplans.so, by what it holds"))?;
        // a name without a folder would be looked for among the machine's libraries
        let whole = fs::canonicalize(path).map_err(|error| format!("{path}: {error}"))?;
        let file = CString::new(whole.as_os_str().as_bytes()).expect("a file's name has no 0");
        // SAFETY: both names end with a 0; whoever names a library has its code run
        let [build, walk] = unsafe {
            let library = dlopen(file.as_ptr(), RTLD_NOW);
            if library.is_null() {
                return Err(CStr::from_ptr(dlerror()).to_string_lossy().into_owned());
            }
            [c"plans_build", c"plans_walk"].map(|name| dlsym(library, name.as_ptr()))
        };
        if build.is_null() || walk.is_null() {
            return Err(format!("{path}: it has no plans_build, or no plans_walk"));
        }
        // SAFETY: the header of each of these versions declares both calls so
        let (build, walk) = unsafe {
            let walk = transmute::<*mut c_void, Walk>(walk);
            match version {
                1 => (Build::First(transmute::<*mut c_void, Call<FirstBuilt>>(build)), walk),
                2 | 3 => (Build::Now(transmute::<*mut c_void, Call<Built>>(build)), walk),
                _ => return Err(format!("{path}: the results of version {version} are not known here")),
            }
        };
        Ok(Library { build, walk, lent: Lent::new() })
    }

    /// The refusal, and the length, the states and the joins, which all versions give.
    fn build(&mut self, book: &[u8]) -> [u32; 4] {
        let Lent { work, out } = &mut self.lent;
        match self.build {
            Build::First(call) => {
                let FirstBuilt { refusal, length, states, joins } = library::call(call, book, work, out);
                [u32::from(refusal), length, states, joins]
            }
            Build::Now(call) => {
                let Built { refusal, length, states, joins, .. } = library::call(call, book, work, out);
                [u32::from(refusal), length, states, joins]
            }
        }
    }

    fn table(&mut self, book: &[u8]) -> Result<(&[u8], [u32; 4]), String> {
        let built = self.build(book);
        match built {
            [0, length, ..] => Ok((&self.lent.out[..length as usize], built)),
            [refusal, ..] => Err(format!("refusal {refusal}")),
        }
    }

    fn walk(&mut self, table: &[u8], row: &[u8]) -> Walked {
        let work = &mut self.lent.work;
        // SAFETY: each pointer comes with the length of the slice it was taken from, and the slices do not overlap
        unsafe { (self.walk)(table.as_ptr(), table.len(), row.as_ptr(), row.len(), work.as_mut_ptr(), work.len()) }
    }

    /// The nanoseconds of so many calls.
    fn block(&mut self, timed: &Timed) -> f64 {
        nanoseconds(&mut || {
            for _ in 0..CALLS {
                match timed {
                    Timed::Build(book) => {
                        black_box(self.build(black_box(book)));
                    }
                    Timed::Walk(table, row) => {
                        black_box(self.walk(black_box(table), black_box(row)));
                    }
                }
            }
        })
    }
}

/// What both libraries do in turn.
enum Timed {
    Build(Vec<u8>),
    Walk(Vec<u8>, Vec<u8>),
}

/// The first number of the version, from the soname that stands in a shared library.
fn version(bytes: &[u8]) -> Option<u32> {
    let soname = b"libplans.so.";
    let at = bytes.windows(soname.len()).position(|part| part == soname)? + soname.len();
    let digits: String = bytes[at..].iter().take_while(|byte| byte.is_ascii_digit()).map(|&byte| char::from(byte)).collect();
    digits.parse().ok()
}

/// This library's time to the other's.
fn ratio(now: &mut Library, other: &mut Library, timed: &Timed) -> f64 {
    let mut least = [f64::INFINITY; 2];
    for _ in 0..BLOCKS {
        least = [least[0].min(now.block(timed)), least[1].min(other.block(timed))];
    }
    least[0] / least[1]
}

fn median(figures: &[f64]) -> f64 {
    let mut sorted = figures.to_vec();
    sorted.sort_by(f64::total_cmp);
    sorted[sorted.len() / 2]
}

fn geometric_mean(figures: &[f64]) -> f64 {
    (figures.iter().map(|figure| figure.ln()).sum::<f64>() / figures.len() as f64).exp()
}

/// The walk that is timed, over a table that both libraries build.
fn walk(now: &mut Library, other: &mut Library) -> Result<Timed, String> {
    let book = cases::unjoined();
    let (table, _) = now.table(&book.bytes())?;
    let (table, row) = (table.to_vec(), book.rows[0].clone());
    let [walked, walked_by_other] = [&mut *now, other].map(|library| library.walk(&table, &row));
    if walked.refusal != 0 || walked != walked_by_other {
        return Err(format!("the walk: {walked:?}, by the other {walked_by_other:?}"));
    }
    Ok(Timed::Walk(table, row))
}

/// Times the library of the first file against that of the second; true where the bar is met.
pub fn run(now: &str, other: &str) -> Result<bool, String> {
    let (mut now, mut other) = (Library::open(now)?, Library::open(other)?);
    let books = CLASSES.map(|class| cases::typical().with_class(class).bytes());
    for (class, book) in CLASSES.iter().zip(&books) {
        if now.table(book)? != other.table(book)? {
            return Err(format!("typical {}: the tables differ", class.label()));
        }
    }
    let walk = walk(&mut now, &mut other)?;
    let builds = books.map(Timed::Build);
    let runs: Vec<[f64; CLASSES.len()]> =
        (0..RUNS).map(|_| builds.each_ref().map(|build| ratio(&mut now, &mut other, build))).collect();
    let row = |label: &str, ratios: &[f64]| {
        let columns: String = ratios.iter().map(|ratio| format!("{ratio:8.3}")).collect();
        println!("{label:16}{columns}{:10.3}", median(ratios));
    };
    println!("builds of the typical days: this library's time to the other's, in {RUNS} runs, and the median\n");
    for (i, class) in CLASSES.map(Class::label).iter().enumerate() {
        row(class, &runs.iter().map(|run| run[i]).collect::<Vec<f64>>());
    }
    let means: Vec<f64> = runs.iter().map(|run| geometric_mean(run)).collect();
    row("geometric mean", &means);
    let met = median(&means) <= LIMIT;
    println!("\nlimit {LIMIT:.2}: {}\n", if met { "met" } else { "MISSED" });
    println!("a walk of 40 names over a built table of 512 states, by the same libraries; no limit\n");
    row("walk", &(0..RUNS).map(|_| ratio(&mut now, &mut other, &walk)).collect::<Vec<f64>>());
    Ok(met)
}
