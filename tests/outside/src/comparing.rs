//! One call of the library compared with the reference: what it returns, and every byte of every buffer afterwards.

use crate::buffers::{Buffer, Noise};
use crate::counts::Counts;
use crate::library::{
    self, plans_build, plans_build_counted, plans_list, plans_read_rows, plans_rewrite, plans_walk, Built, Call, Rewritten,
    RowsGiven, Walked, Written,
};
use reference::counts::{with_counts, Counted};
use reference::listing::list;
use reference::plan_rows::{read_rows, Asked, PlanRows, Refused};
use reference::random::Random;
use reference::refusal::Refusal;
use reference::walk::walk;
use reference::{Lent, INPUT_LIMIT, WORK_BYTES};
use std::fmt::{Debug, Display, Formatter};

/// The library and the reference differ, or a claim over several calls does not hold.
#[derive(Clone, Debug)]
pub struct Mismatch {
    call: &'static str,
    what: String,
    inputs: Vec<(&'static str, Vec<u8>)>,
}

impl Mismatch {
    pub fn new(call: &'static str, what: String, inputs: &[(&'static str, &[u8])]) -> Mismatch {
        Mismatch { call, what, inputs: inputs.iter().map(|(name, bytes)| (*name, bytes.to_vec())).collect() }
    }
}

impl Display for Mismatch {
    fn fmt(&self, out: &mut Formatter) -> std::fmt::Result {
        writeln!(out, "{}: {}", self.call, self.what)?;
        for (name, bytes) in &self.inputs {
            let hexadecimal: Vec<String> = bytes.iter().map(|byte| format!("{byte:02X}")).collect();
            writeln!(out, "  {name}, {} bytes: {}", bytes.len(), hexadecimal.join(" "))?;
        }
        Ok(())
    }
}

/// What the reference gives for an accepted call on an input, a working area and an output.
trait Accepted: Sized {
    /// What the library's call returns.
    type Given: PartialEq + Debug;

    /// The bytes that are to be at the output's front.
    fn written(&self) -> &[u8];

    /// What the library is to return for what the reference gives.
    fn given(expected: &Result<Self, Refusal>) -> Self::Given;
}

/// Where the buffers of a call stand, and their lengths.
struct Places {
    input: (*const u8, usize),
    second: (*const u8, usize),
    work: (*mut u8, usize),
    output: (*mut u8, usize),
    second_output: (*mut u8, usize),
}

/// An output as it is lent: its length, and the bytes that are to be at its front after the call.
#[derive(Clone, Copy)]
struct Output<'a> {
    length: usize,
    written: &'a [u8],
}

impl Output<'_> {
    /// For the calls that have one output only.
    const NONE: Output<'static> = Output { length: 0, written: &[] };
}

/// One thread's buffers, generator and counts.
pub struct Run {
    pub random: Random,
    pub counts: Counts,
    noise: Noise,
    input: Buffer,
    /// A walk's row, or a plan's list of names.
    second: Buffer,
    work: Buffer,
    output: Buffer,
    /// The counts of a build.
    second_output: Buffer,
}

impl Run {
    pub fn new(seed: u64) -> Run {
        let mut random = Random::new(seed);
        Run {
            noise: Noise::draw(&mut random),
            random,
            counts: Counts::default(),
            input: Buffer::default(),
            second: Buffer::default(),
            work: Buffer::default(),
            output: Buffer::default(),
            second_output: Buffer::default(),
        }
    }

    /// A build with buffers that are long enough. Gives back what both gave, none where both refused.
    pub fn compare_build(&mut self, book: &[u8]) -> Result<Option<reference::Built>, Mismatch> {
        self.compare_build_lent(book, Lent { work: WORK_BYTES, output: INPUT_LIMIT })
    }

    /// The same with buffers of the given lengths.
    pub fn compare_build_lent(&mut self, book: &[u8], lent: Lent) -> Result<Option<reference::Built>, Mismatch> {
        let expected = reference::build(book, lent, &mut self.random);
        self.counts.count_built(book, &expected);
        self.compare_on_three(("plans_build", plans_build), expected, book, lent)
    }

    /// A build without counts and one with them, with buffers that are long enough. Gives back what both gave, none where both refused.
    pub fn compare_counted(&mut self, book: &[u8]) -> Result<Option<Counted>, Mismatch> {
        self.compare_counted_lent(book, Lent { work: WORK_BYTES, output: INPUT_LIMIT }, INPUT_LIMIT)
    }

    /// The same with buffers of the given lengths, `room` that of the counts. Both are held against one and the same build of the
    /// reference, so their tables, numbers and refusals are the same, but for a 13 of the counts.
    pub fn compare_counted_lent(&mut self, book: &[u8], lent: Lent, room: usize) -> Result<Option<Counted>, Mismatch> {
        let built = reference::build(book, lent, &mut self.random);
        self.counts.count_built(book, &built);
        self.compare_on_three(("plans_build", plans_build), built.clone(), book, lent)?;
        let fits = built.is_ok();
        let expected = built.and_then(|built| with_counts(book, built, room));
        self.counts.count_counted(&expected, fits);
        let (table, counts) = expected.as_ref().map_or((&[][..], &[][..]), |counted| (&counted.built.bytes, &counted.counts));
        // SAFETY: the buffers do not overlap, and each has its length
        let call = |at: &Places| unsafe {
            let ((book, book_len), (work, work_len), (out, out_len), (counts, counts_len)) =
                (at.input, at.work, at.output, at.second_output);
            plans_build_counted(book, book_len, work, work_len, out, out_len, counts, counts_len)
        };
        let outputs = [Output { length: lent.output, written: table }, Output { length: room, written: counts }];
        let wrong = self.call_lent(call, &counted_of(&expected), (book, &[]), lent.work, outputs);
        wrong.map_or(Ok(expected.ok()), |wrong| Err(Mismatch::new("plans_build_counted", wrong, &[("input", book)])))
    }

    /// A rewriting with buffers that are long enough. Gives back what both gave, none where both refused.
    pub fn compare_rewrite(&mut self, table: &[u8]) -> Result<Option<reference::Rewritten>, Mismatch> {
        self.compare_rewrite_lent(table, Lent { work: WORK_BYTES, output: INPUT_LIMIT })
    }

    /// The same with buffers of the given lengths.
    pub fn compare_rewrite_lent(&mut self, table: &[u8], lent: Lent) -> Result<Option<reference::Rewritten>, Mismatch> {
        let expected = reference::rewrite(table, lent);
        self.counts.count_written(&expected);
        self.compare_on_three(("plans_rewrite", plans_rewrite), expected, table, lent)
    }

    /// A listing with buffers that are long enough. Gives back the text that both gave, none where both refused.
    pub fn compare_list(&mut self, book: &[u8]) -> Result<Option<Vec<u8>>, Mismatch> {
        self.compare_list_lent(book, Lent { work: WORK_BYTES, output: INPUT_LIMIT })
    }

    /// The same with buffers of the given lengths.
    pub fn compare_list_lent(&mut self, book: &[u8], lent: Lent) -> Result<Option<Vec<u8>>, Mismatch> {
        let expected = list(book, lent, &mut self.random);
        self.counts.count_written(&expected);
        self.compare_on_three(("plans_list", plans_list), expected, book, lent)
    }

    /// A call on an input, a working area and an output with buffers of the given lengths. Gives back what both gave, none where
    /// both refused.
    fn compare_on_three<A: Accepted>(
        &mut self,
        (name, call): (&'static str, Call<A::Given>),
        expected: Result<A, Refusal>,
        input: &[u8],
        lent: Lent,
    ) -> Result<Option<A>, Mismatch> {
        let written = expected.as_ref().map_or(&[][..], A::written);
        // SAFETY: the buffers do not overlap, and each has its length
        let call = |at: &Places| unsafe { call(at.input.0, at.input.1, at.work.0, at.work.1, at.output.0, at.output.1) };
        let outputs = [Output { length: lent.output, written }, Output::NONE];
        let wrong = self.call_lent(call, &A::given(&expected), (input, &[]), lent.work, outputs);
        wrong.map_or(Ok(expected.ok()), |wrong| Err(Mismatch::new(name, wrong, &[("input", input)])))
    }

    /// Rows read from a plan with buffers that are long enough. Gives back the rows that both gave, none where both refused.
    pub fn compare_rows(&mut self, asked: Asked) -> Result<Option<PlanRows>, Mismatch> {
        self.compare_rows_lent(asked, Lent { work: WORK_BYTES, output: INPUT_LIMIT })
    }

    /// The same with buffers of the given lengths.
    pub fn compare_rows_lent(&mut self, asked: Asked, lent: Lent) -> Result<Option<PlanRows>, Mismatch> {
        let expected = read_rows(asked, lent);
        let written = expected.as_ref().map_or(&[][..], |read| &read.bytes);
        // SAFETY: the buffers do not overlap, and each has its length
        let call = |at: &Places| unsafe {
            let ((plan, plan_len), (names, names_len), (work, work_len), (out, out_len)) =
                (at.input, at.second, at.work, at.output);
            plans_read_rows(plan, plan_len, names, names_len, asked.chosen, work, work_len, out, out_len)
        };
        let outputs = [Output { length: lent.output, written }, Output::NONE];
        let wrong = self.call_lent(call, &rows_given_of(&expected), (asked.plan, asked.names), lent.work, outputs);
        self.counts.count_rows(&expected);
        match wrong {
            Some(wrong) => {
                let what = format!("{wrong} (chosen {})", asked.chosen);
                Err(Mismatch::new("plans_read_rows", what, &[("input", asked.plan), ("names", asked.names)]))
            }
            None => Ok(expected.ok()),
        }
    }

    /// A call with a working area and outputs of the given lengths: what is wrong with what it returns, with the bytes that it is to
    /// write at the outputs' fronts, or with any other lent byte.
    fn call_lent<R: PartialEq + Debug>(
        &mut self,
        call: impl Fn(&Places) -> R,
        expected: &R,
        (input, second): (&[u8], &[u8]),
        work: usize,
        outputs: [Output; 2],
    ) -> Option<String> {
        let before = outputs.map(|output| self.noise.part(output.length, &mut self.random));
        self.input.lend(input, &mut self.random);
        self.second.lend(second, &mut self.random);
        self.work.lend(self.noise.part(work, &mut self.random), &mut self.random);
        self.output.lend(before[0], &mut self.random);
        self.second_output.lend(before[1], &mut self.random);
        let given = call(&Places {
            input: (self.input.pointer(), self.input.len()),
            second: (self.second.pointer(), self.second.len()),
            work: (self.work.pointer(), self.work.len()),
            output: (self.output.pointer(), self.output.len()),
            second_output: (self.second_output.pointer(), self.second_output.len()),
        });
        difference(expected, &given)
            .or_else(|| output_after("output", &self.output, before[0], outputs[0].written))
            .or_else(|| output_after("second output", &self.second_output, before[1], outputs[1].written))
            .or_else(|| self.buffers_after(input, second))
            .map(|wrong| {
                let [output, other] = outputs.map(|output| output.length);
                format!("{wrong} (working area {work} bytes, output {output} bytes, second output {other} bytes)")
            })
    }

    /// A walk with a working area of the least length. Gives back what the library gave.
    pub fn compare_walk(&mut self, table: &[u8], row: &[u8]) -> Result<Walked, Mismatch> {
        self.compare_walk_lent(table, row, WORK_BYTES)
    }

    /// The same with a working area of the given length.
    pub fn compare_walk_lent(&mut self, table: &[u8], row: &[u8], work: usize) -> Result<Walked, Mismatch> {
        let expected = walk(table, row, work);
        self.input.lend(table, &mut self.random);
        self.second.lend(row, &mut self.random);
        self.work.lend(self.noise.part(work, &mut self.random), &mut self.random);
        let (table_at, row_at, work_at) = (self.input.pointer(), self.second.pointer(), self.work.pointer());
        // SAFETY: three buffers that do not overlap, each of the length passed
        let given = unsafe { plans_walk(table_at, self.input.len(), row_at, self.second.len(), work_at, self.work.len()) };
        let wrong = difference(&walked_of(&expected), &given).or_else(|| self.buffers_after(table, row));
        self.counts.count_walked(table, row, &expected);
        match wrong {
            Some(wrong) => {
                let lengths = format!("{wrong} (working area {work} bytes)");
                Err(Mismatch::new("plans_walk", lengths, &[("table", table), ("row", row)]))
            }
            None => Ok(given),
        }
    }

    /// What is wrong after a call with a buffer that is not the output's content.
    fn buffers_after(&self, input: &[u8], second: &[u8]) -> Option<String> {
        static ZEROS: [u8; 100_000] = [0; 100_000];
        says(self.work.content() != &ZEROS[..self.work.len()], "a byte of the working area is not zero")
            .or_else(|| says(self.input.content() != input, "the input was altered"))
            .or_else(|| says(self.second.content() != second, "the second input was altered"))
            .or_else(|| says(!self.input.guards_hold(), "a byte beside the input was altered"))
            .or_else(|| says(!self.second.guards_hold(), "a byte beside the second input was altered"))
            .or_else(|| says(!self.work.guards_hold(), "a byte beside the working area was altered"))
            .or_else(|| says(!self.output.guards_hold(), "a byte beside the output was altered"))
            .or_else(|| says(!self.second_output.guards_hold(), "a byte beside the second output was altered"))
    }
}

/// What is wrong after a call with the content of an output, which was `before` and has `written` at its front.
fn output_after(name: &str, output: &Buffer, before: &[u8], written: &[u8]) -> Option<String> {
    let (front, beyond) = output.content().split_at(written.len());
    says(front != written, &format!("the {name}'s front is not what is to be written"))
        .or_else(|| says(beyond != &before[written.len()..], &format!("the {name} was altered where it is to stay as it was")))
}

fn says(wrong: bool, what: &str) -> Option<String> {
    wrong.then(|| what.to_string())
}

fn difference<T: PartialEq + Debug>(expected: &T, given: &T) -> Option<String> {
    (expected != given).then(|| format!("expected {expected:?}, given {given:?}"))
}

impl Accepted for reference::Built {
    type Given = Built;

    fn written(&self) -> &[u8] {
        &self.bytes
    }

    fn given(expected: &Result<Self, Refusal>) -> Built {
        match expected {
            Ok(built) => Built {
                refusal: 0,
                length: built.bytes.len() as u32,
                states: built.states as u32,
                joins: built.joins as u32,
                distinct: built.distinct as u32,
            },
            Err(refusal) => Built { refusal: refusal.number(), length: 0, states: 0, joins: 0, distinct: 0 },
        }
    }
}

impl Accepted for reference::Rewritten {
    type Given = Rewritten;

    fn written(&self) -> &[u8] {
        &self.bytes
    }

    fn given(expected: &Result<Self, Refusal>) -> Rewritten {
        match expected {
            Ok(rewritten) => Rewritten { refusal: 0, length: rewritten.bytes.len() as u32, states: rewritten.states as u32 },
            Err(refusal) => Rewritten { refusal: refusal.number(), length: 0, states: 0 },
        }
    }
}

/// A listing.
impl Accepted for Vec<u8> {
    type Given = Written;

    fn written(&self) -> &[u8] {
        self
    }

    fn given(expected: &Result<Self, Refusal>) -> Written {
        match expected {
            Ok(text) => Written { refusal: 0, length: text.len() as u32 },
            Err(refusal) => Written { refusal: refusal.number(), length: 0 },
        }
    }
}

/// What the library is to return for what the reference gives.
fn walked_of(expected: &Result<reference::walk::Walked, Refusal>) -> Walked {
    match expected {
        Ok(walked) => Walked {
            refusal: 0,
            outcome: walked.outcome as u8,
            next_count: walked.count as u8,
            walked: walked.beginning.len() as u32,
            next_names: walked.next_names,
        },
        Err(refusal) => Walked { refusal: refusal.number(), outcome: 0, next_count: 0, walked: 0, next_names: 0 },
    }
}

fn counted_of(expected: &Result<Counted, Refusal>) -> library::Counted {
    let counts_length = expected.as_ref().map_or(0, |counted| counted.counts.len() as u32);
    let built = expected.as_ref().map(|counted| counted.built.clone()).map_err(|refusal| *refusal);
    let Built { refusal, length, states, joins, distinct } = reference::Built::given(&built);
    library::Counted { refusal, length, states, joins, distinct, counts_length }
}

fn rows_given_of(expected: &Result<PlanRows, Refused>) -> RowsGiven {
    match expected {
        Ok(read) => RowsGiven { refusal: 0, length: read.bytes.len() as u32, rows: read.rows as u32, at: 0 },
        Err(refused) => RowsGiven { refusal: refused.refusal.number(), length: 0, rows: 0, at: refused.at as u32 },
    }
}
