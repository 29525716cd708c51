//! The library and both variants of the fast implementation side by side: compared on every input before they are timed.

use crate::fast::{Arrays, Fast, Maps};
use crate::library::{self, Built, Walked, INPUT_LIMIT, WORK_BYTES};
use crate::measure::{Effort, Timer, Times};
use std::fmt::Debug;
use std::hint::black_box;

/// What is lent to a call.
pub struct Lent {
    pub work: Vec<u8>,
    pub out: Vec<u8>,
}

impl Lent {
    pub fn new() -> Lent {
        Lent { work: vec![0; WORK_BYTES], out: vec![0; INPUT_LIMIT] }
    }
}

pub struct Sides {
    /// The memory that the variant with arrays keeps between calls.
    arrays: Box<Fast<Arrays>>,
    to_library: Lent,
    to_maps: Lent,
    to_arrays: Lent,
    timer: Timer,
}

fn build_by_maps(book: &[u8], lent: &mut Lent) -> Built {
    Fast::<Maps>::default().build(book, &mut lent.work, &mut lent.out)
}

fn walk_by_maps(table: &[u8], row: &[u8], lent: &mut Lent) -> Walked {
    Fast::<Maps>::default().walk(table, row, &mut lent.work)
}

/// The result that all have, or all three where they differ.
fn agreed<T: PartialEq + Debug>(library: T, maps: T, arrays: T) -> Result<T, String> {
    if library != maps || library != arrays {
        return Err(format!("library {library:?}, maps {maps:?}, arrays {arrays:?}"));
    }
    Ok(library)
}

impl Sides {
    pub fn new() -> Sides {
        let (to_library, to_maps, to_arrays) = (Lent::new(), Lent::new(), Lent::new());
        Sides { arrays: Box::default(), to_library, to_maps, to_arrays, timer: Timer::new() }
    }

    /// Builds by all. The result and the table, or in what they differ.
    pub fn build(&mut self, book: &[u8]) -> Result<(Built, &[u8]), String> {
        let Sides { arrays, to_library, to_maps, to_arrays, .. } = self;
        let by_library = library::build(book, &mut to_library.work, &mut to_library.out);
        let by_arrays = arrays.build(book, &mut to_arrays.work, &mut to_arrays.out);
        let built = agreed(by_library, build_by_maps(book, to_maps), by_arrays)?;
        let length = built.length as usize;
        let table = &to_library.out[..length];
        if table != &to_maps.out[..length] || table != &to_arrays.out[..length] {
            return Err("the tables differ".to_string());
        }
        Ok((built, table))
    }

    /// Walks by all. The result, or in what they differ.
    pub fn walk(&mut self, table: &[u8], row: &[u8]) -> Result<Walked, String> {
        let by_library = library::walk(table, row, &mut self.to_library.work);
        let by_maps = walk_by_maps(table, row, &mut self.to_maps);
        let by_arrays = self.arrays.walk(table, row, &mut self.to_arrays.work);
        agreed(by_library, by_maps, by_arrays)
    }

    /// Times builds by the library, by maps and by arrays.
    pub fn time_builds(&mut self, book: &[u8], effort: Effort) -> Times<3> {
        let Sides { arrays, to_library, to_maps, to_arrays, timer } = self;
        let mut by_library = || {
            black_box(library::build(black_box(book), &mut to_library.work, &mut to_library.out));
        };
        let mut by_maps = || {
            black_box(build_by_maps(black_box(book), to_maps));
        };
        let mut by_arrays = || {
            black_box(arrays.build(black_box(book), &mut to_arrays.work, &mut to_arrays.out));
        };
        timer.time([&mut by_library, &mut by_maps, &mut by_arrays], effort)
    }

    /// Times walks by the library, by maps and by arrays.
    pub fn time_walks(&mut self, table: &[u8], row: &[u8], effort: Effort) -> Times<3> {
        let Sides { arrays, to_library, to_maps, to_arrays, timer } = self;
        let mut by_library = || {
            black_box(library::walk(black_box(table), black_box(row), &mut to_library.work));
        };
        let mut by_maps = || {
            black_box(walk_by_maps(black_box(table), black_box(row), to_maps));
        };
        let mut by_arrays = || {
            black_box(arrays.walk(black_box(table), black_box(row), &mut to_arrays.work));
        };
        timer.time([&mut by_library, &mut by_maps, &mut by_arrays], effort)
    }

    /// The library alone, in memsets.
    pub fn time_library(&mut self, book: &[u8], effort: Effort) -> f64 {
        let Lent { work, out } = &mut self.to_library;
        let mut by_library = || {
            black_box(library::build(black_box(book), work, out));
        };
        let [cost] = self.timer.time([&mut by_library], effort).in_memsets();
        cost
    }
}
