//! The functions as include/push_down_filter.h declares them, each behind one on slices that answers number and record
//! as they come.

/// What a check answers.
#[derive(Clone, Copy, Debug, PartialEq, Eq)]
#[repr(C)]
pub struct Verdict {
    /// 0 if the call is granted, else the number of the refusal.
    pub number: u32,
    /// The record that a refusal names, else 0.
    pub record: u32,
}

/// What a rewrite answers, beside the output.
#[derive(Clone, Copy, Debug, PartialEq, Eq)]
#[repr(C)]
pub struct Rewritten {
    /// 0 if the call is granted, else the number of the refusal.
    pub number: u32,
    /// The record that a refusal names, else 0.
    pub record: u32,
    /// 1 if the rewrite says that it changed the plan, else 0.
    pub flag: u32,
    /// How many records the answer has; 0 if refused.
    pub records: u32,
}

/// What a pass answers, beside the output.
#[derive(Clone, Copy, Debug, PartialEq, Eq)]
#[repr(C)]
pub struct Passed {
    /// 0 if the call is granted, else the number of the refusal.
    pub number: u32,
    /// The record that a refusal names, else 0.
    pub record: u32,
    /// How many nodes were visited.
    pub visits: u64,
    /// How many rewrites raised the flag.
    pub changed: u64,
    /// 1 if every node was visited, 0 if nodes remain or the call is refused.
    pub finished: u32,
    /// How many records the answer has; 0 if refused.
    pub records: u32,
}

/// What a row test answers.
#[derive(Clone, Copy, Debug, PartialEq, Eq)]
#[repr(C)]
pub struct Tested {
    /// 0 if the call is granted, else the number of the refusal.
    pub number: u32,
    /// The record that a refusal names, else 0.
    pub record: u32,
    /// 0 FALSE, 1 TRUE, 2 UNKNOWN; 0 if refused.
    pub truth: u32,
}

unsafe extern "C" {
    fn push_down_filter_version() -> u32;
    fn push_down_filter_check(image: *const u8, length: usize) -> Verdict;
    fn push_down_filter_row_test(
        image: *const u8,
        length: usize,
        node: u32,
        values: *const i64,
        count: usize,
        marks: *const u8,
        marked: usize,
    ) -> Tested;
    fn push_down_filter_rewrite(image: *const u8, length: usize, node: u32, out: *mut u8, room: usize) -> Rewritten;
    fn push_down_filter_pass(image: *const u8, length: usize, budget: u64, out: *mut u8, room: usize) -> Passed;
}

// SAFETY, of all: every pointer and length are those of a slice that lives through the call. The call reads what
// is lent shared and writes to the output alone, and its contract demands nothing more of the caller.

/// The version of the library: 1,000,000 for each major, 1,000 for each minor version, and the patch.
pub fn version() -> u32 {
    unsafe { push_down_filter_version() }
}

/// The tests 1 to 7.
pub fn check(image: &[u8]) -> Verdict {
    unsafe { push_down_filter_check(image.as_ptr(), image.len()) }
}

/// The rewrite of the plan at record `node`, in its place.
pub fn rewrite(image: &[u8], node: u32, out: &mut [u8]) -> Rewritten {
    unsafe { push_down_filter_rewrite(image.as_ptr(), image.len(), node, out.as_mut_ptr(), out.len()) }
}

/// The pass, of at most `budget` visits.
pub fn pass(image: &[u8], budget: u64, out: &mut [u8]) -> Passed {
    unsafe { push_down_filter_pass(image.as_ptr(), image.len(), budget, out.as_mut_ptr(), out.len()) }
}

/// The predicate of the Filter at record `node` on a row.
pub fn row_test(image: &[u8], node: u32, values: &[i64], marks: &[u8]) -> Tested {
    let (count, marked) = (values.len(), marks.len());
    unsafe {
        push_down_filter_row_test(image.as_ptr(), image.len(), node, values.as_ptr(), count, marks.as_ptr(), marked)
    }
}
