//! The calls of include/plans.h, declared again.

#[repr(C)]
#[derive(Clone, Copy, Debug, PartialEq, Eq)]
pub struct Built {
    pub refusal: u8,
    pub length: u32,
    pub states: u32,
    pub joins: u32,
    pub distinct: u32,
}

#[repr(C)]
#[derive(Clone, Copy, Debug, PartialEq, Eq)]
pub struct Counted {
    pub refusal: u8,
    pub length: u32,
    pub states: u32,
    pub joins: u32,
    pub distinct: u32,
    pub counts_length: u32,
}

#[repr(C)]
#[derive(Clone, Copy, Debug, PartialEq, Eq)]
pub struct Rewritten {
    pub refusal: u8,
    pub length: u32,
    pub states: u32,
}

#[repr(C)]
#[derive(Clone, Copy, Debug, PartialEq, Eq)]
pub struct Walked {
    pub refusal: u8,
    pub outcome: u8,
    pub next_count: u8,
    pub walked: u32,
    pub next_names: u64,
}

#[repr(C)]
#[derive(Clone, Copy, Debug, PartialEq, Eq)]
pub struct Written {
    pub refusal: u8,
    pub length: u32,
}

#[repr(C)]
#[derive(Clone, Copy, Debug, PartialEq, Eq)]
pub struct RowsGiven {
    pub refusal: u8,
    pub length: u32,
    pub rows: u32,
    pub at: u32,
}

/// `plans_build`, `plans_rewrite` and `plans_list` have the same arguments: input, working area and output, each by pointer and
/// length.
pub type Call<R> = unsafe extern "C" fn(*const u8, usize, *mut u8, usize, *mut u8, usize) -> R;

extern "C" {
    pub fn plans_build(book: *const u8, book_len: usize, work: *mut u8, work_len: usize, out: *mut u8, out_len: usize) -> Built;

    pub fn plans_build_counted(
        book: *const u8,
        book_len: usize,
        work: *mut u8,
        work_len: usize,
        out: *mut u8,
        out_len: usize,
        counts: *mut u8,
        counts_len: usize,
    ) -> Counted;

    pub fn plans_rewrite(
        table: *const u8,
        table_len: usize,
        work: *mut u8,
        work_len: usize,
        out: *mut u8,
        out_len: usize,
    ) -> Rewritten;

    pub fn plans_walk(
        table: *const u8,
        table_len: usize,
        row: *const u8,
        row_len: usize,
        work: *mut u8,
        work_len: usize,
    ) -> Walked;

    pub fn plans_list(
        book: *const u8,
        book_len: usize,
        work: *mut u8,
        work_len: usize,
        text: *mut u8,
        text_len: usize,
    ) -> Written;

    pub fn plans_read_rows(
        plan: *const u8,
        plan_len: usize,
        names: *const u8,
        names_len: usize,
        chosen: u8,
        work: *mut u8,
        work_len: usize,
        out: *mut u8,
        out_len: usize,
    ) -> RowsGiven;
}
