//! The calls on bytes: slices in, results out.

use crate::{exported, Refusal, RECORD_BYTES};

/// The result of a call whose number is 0, else the refusal.
fn granted<T>(number: u32, record: u32, result: T) -> Result<T, Refusal> {
    match number {
        0 => Ok(result),
        _ => Err(Refusal::new(number, record)),
    }
}

/// The version of the library that is linked: major, minor, patch.
pub fn version() -> [u32; 3] {
    let number = exported::version();
    [number / 1_000_000, number / 1_000 % 1_000, number % 1_000]
}

/// The tests 1 to 7.
pub fn check(image: &[u8]) -> Result<(), Refusal> {
    let verdict = exported::check(image);
    granted(verdict.number, verdict.record, ())
}

/// What a rewrite answered. The output begins with the answer, zeros follow it.
#[derive(Clone, Copy, Debug, PartialEq, Eq)]
pub struct Rewritten {
    /// Whether the rewrite says that it changed the plan. It may have altered it without saying so.
    pub changed: bool,
    /// How many records the answer has.
    pub records: usize,
}

impl Rewritten {
    /// How many bytes of the output are the answer.
    pub fn bytes(&self) -> usize {
        self.records * RECORD_BYTES
    }
}

/// Rewrites the plan at record `node` in its place; the answer is the whole image.
pub fn rewrite(image: &[u8], node: u32, out: &mut [u8]) -> Result<Rewritten, Refusal> {
    let result = exported::rewrite(image, node, out);
    let rewritten = Rewritten { changed: result.flag == 1, records: result.records as usize };
    granted(result.number, result.record, rewritten)
}

/// What a pass answered. The output begins with the answer, zeros follow it.
#[derive(Clone, Copy, Debug, PartialEq, Eq)]
pub struct Passed {
    /// How many nodes were visited.
    pub visits: u64,
    /// How many of these rewrites said that they changed the plan. A plan that no longer alters can have some at each
    /// pass: compare images, do not wait for 0.
    pub changed: u64,
    /// Whether every node was visited.
    pub finished: bool,
    /// How many records the answer has.
    pub records: usize,
}

impl Passed {
    /// How many bytes of the output are the answer.
    pub fn bytes(&self) -> usize {
        self.records * RECORD_BYTES
    }
}

/// Rewrites the root, then likewise, in order, the plans below what stands there now, until `budget` nodes were
/// visited.
pub fn pass(image: &[u8], budget: u64, out: &mut [u8]) -> Result<Passed, Refusal> {
    let result = exported::pass(image, budget, out);
    let passed = Passed {
        visits: result.visits,
        changed: result.changed,
        finished: result.finished == 1,
        records: result.records as usize,
    };
    granted(result.number, result.record, passed)
}

/// What a predicate says of a row.
#[derive(Clone, Copy, Debug, PartialEq, Eq, Hash)]
pub enum Truth {
    /// The row does not pass.
    False,
    /// The row passes.
    True,
    /// The row does not pass: a NULL leaves it open.
    Unknown,
}

/// Tries the predicate of the Filter at record `node` on one row over its input's fields. A value whose mark is 1 is
/// NULL and is not read; a boolean is 0 or 1.
pub fn row_test(image: &[u8], node: u32, values: &[i64], marks: &[u8]) -> Result<Truth, Refusal> {
    let result = exported::row_test(image, node, values, marks);
    let truth = match result.truth {
        0 => Truth::False,
        1 => Truth::True,
        2 => Truth::Unknown,
        truth => unreachable!("the library's contract has no truth {truth}"),
    };
    granted(result.number, result.record, truth)
}
