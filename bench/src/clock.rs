//! The time that a call takes.

use std::time::Instant;

/// Of the thread alone, on Linux: time in which others had the core does not count.
const CLOCK_THREAD_CPUTIME_ID: i32 = 3;

#[repr(C)]
struct Timespec {
    seconds: i64,
    nanoseconds: i64,
}

extern "C" {
    fn clock_gettime(clock: i32, time: *mut Timespec) -> i32;
}

fn thread_nanoseconds() -> f64 {
    let mut time = Timespec { seconds: 0, nanoseconds: 0 };
    // SAFETY: the call writes one timespec, to one that is ours
    let failed = unsafe { clock_gettime(CLOCK_THREAD_CPUTIME_ID, &mut time) } != 0;
    assert!(!failed, "the thread's clock cannot be read");
    time.seconds as f64 * 1e9 + time.nanoseconds as f64
}

/// For calls of less, the thread's clock is not exact enough.
const LONG_CALL: f64 = 100_000.0;

/// The nanoseconds of a call. A long one is not charged for others on the same core.
pub fn nanoseconds(call: &mut dyn FnMut()) -> f64 {
    let thread_start = thread_nanoseconds();
    let start = Instant::now();
    call();
    let passed = start.elapsed().as_nanos() as f64;
    if passed < LONG_CALL {
        return passed;
    }
    passed.min(thread_nanoseconds() - thread_start)
}
