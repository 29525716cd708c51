//! The least times of calls.

use crate::clock::nanoseconds;
use crate::library::WORK_BYTES;
use std::hint::black_box;
use std::time::{Duration, Instant};

/// How long and how often calls are repeated at least.
#[derive(Clone, Copy)]
pub struct Effort {
    pub time: Duration,
    pub rounds: usize,
}

/// The least times in nanoseconds, of a memset and of each of N calls.
#[derive(Clone, Copy)]
pub struct Times<const N: usize> {
    memset: f64,
    calls: [f64; N],
}

impl<const N: usize> Times<N> {
    pub const NONE: Times<N> = Times { memset: f64::INFINITY, calls: [f64::INFINITY; N] };

    /// The lesser of these times and those of another measurement.
    pub fn or_less(self, other: Times<N>) -> Times<N> {
        let calls = std::array::from_fn(|i| self.calls[i].min(other.calls[i]));
        Times { memset: self.memset.min(other.memset), calls }
    }

    pub fn memset(&self) -> f64 {
        self.memset
    }

    /// The calls in nanoseconds.
    pub fn nanoseconds(&self) -> [f64; N] {
        self.calls
    }

    /// The calls as multiples of the memset.
    pub fn in_memsets(&self) -> [f64; N] {
        self.calls.map(|time| time / self.memset)
    }
}

/// How often a round makes the memset: the first ones after a long call find other data in the caches.
const MEMSETS: usize = 32;

/// The area of the memset, the same for all calls that are timed.
pub struct Timer {
    area: Vec<u8>,
}

impl Timer {
    pub fn new() -> Timer {
        Timer { area: vec![0; WORK_BYTES] }
    }

    /// Times each call by itself, with this effort: three calls that took turns were seen to take up to 1.7 times as long.
    pub fn time<const N: usize>(&mut self, calls: [&mut dyn FnMut(); N], effort: Effort) -> Times<N> {
        let mut least = Times::NONE;
        for (call, least_of_call) in calls.into_iter().zip(&mut least.calls) {
            let begun = Instant::now();
            let mut rounds = 0;
            while rounds < effort.rounds || begun.elapsed() < effort.time {
                for value in 0..MEMSETS {
                    least.memset = least.memset.min(nanoseconds(&mut || set(&mut self.area, value as u8)));
                }
                *least_of_call = least_of_call.min(nanoseconds(call));
                rounds += 1;
            }
        }
        least
    }
}

fn set(area: &mut [u8], value: u8) {
    area.fill(black_box(value));
    black_box(area);
}
