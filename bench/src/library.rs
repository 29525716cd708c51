//! The library's calls as functions over slices. They are declared once, in tests/outside.

#[path = "../../tests/outside/src/library.rs"]
mod calls;

pub use calls::{Built, Call, Counted, Rewritten, RowsGiven, Walked, Written};

pub const WORK_BYTES: usize = 65_536;
pub const INPUT_LIMIT: usize = 65_535;
pub const COUNTS_BYTES: usize = 3_584;

pub fn build(book: &[u8], work: &mut [u8], out: &mut [u8]) -> Built {
    call(calls::plans_build, book, work, out)
}

/// The counts go to `counts`.
pub fn build_counted(book: &[u8], work: &mut [u8], out: &mut [u8], counts: &mut [u8]) -> Counted {
    let (book_len, work_len, out_len, counts_len) = (book.len(), work.len(), out.len(), counts.len());
    let (work, out, counts) = (work.as_mut_ptr(), out.as_mut_ptr(), counts.as_mut_ptr());
    // SAFETY: as in call
    unsafe { calls::plans_build_counted(book.as_ptr(), book_len, work, work_len, out, out_len, counts, counts_len) }
}

pub fn rewrite(table: &[u8], work: &mut [u8], out: &mut [u8]) -> Rewritten {
    call(calls::plans_rewrite, table, work, out)
}

pub fn list(book: &[u8], work: &mut [u8], text: &mut [u8]) -> Written {
    call(calls::plans_list, book, work, text)
}

pub fn walk(table: &[u8], row: &[u8], work: &mut [u8]) -> Walked {
    // SAFETY: as in call
    unsafe { calls::plans_walk(table.as_ptr(), table.len(), row.as_ptr(), row.len(), work.as_mut_ptr(), work.len()) }
}

/// The rows of the elements of a plan whose name has the number `chosen` in this list.
pub fn read_rows(plan: &[u8], list: &[u8], chosen: u8, work: &mut [u8], out: &mut [u8]) -> RowsGiven {
    let (plan_len, list_len, work_len, out_len) = (plan.len(), list.len(), work.len(), out.len());
    let (work, out) = (work.as_mut_ptr(), out.as_mut_ptr());
    // SAFETY: as in call
    unsafe { calls::plans_read_rows(plan.as_ptr(), plan_len, list.as_ptr(), list_len, chosen, work, work_len, out, out_len) }
}

pub fn call<R>(call: Call<R>, input: &[u8], work: &mut [u8], out: &mut [u8]) -> R {
    // SAFETY: each pointer comes with the length of the slice it was taken from, and the slices do not overlap
    unsafe { call(input.as_ptr(), input.len(), work.as_mut_ptr(), work.len(), out.as_mut_ptr(), out.len()) }
}
