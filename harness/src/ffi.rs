//! The functions that the static library exports, as the Rust crate calls them, answering in the harness's own words.
//! Without the feature `library` nothing is linked, and each answers none.

use crate::checker::Verdict;
use crate::rewriting::{Passed, Rewritten};
use crate::row_tests::Tested;

#[cfg(feature = "library")]
use push_down_filter::exported;

/// Whether the library is linked.
pub const LINKED: bool = cfg!(feature = "library");

#[cfg(feature = "library")]
pub fn check(image: &[u8]) -> Option<Verdict> {
    let exported::Verdict { number, record } = exported::check(image);
    Some(Verdict { number, record })
}

#[cfg(not(feature = "library"))]
pub fn check(_image: &[u8]) -> Option<Verdict> {
    None
}

#[cfg(feature = "library")]
pub fn row_test(image: &[u8], node: u32, values: &[i64], marks: &[u8]) -> Option<Tested> {
    let exported::Tested { number, record, truth } = exported::row_test(image, node, values, marks);
    Some(Tested { number, record, truth })
}

#[cfg(not(feature = "library"))]
pub fn row_test(_image: &[u8], _node: u32, _values: &[i64], _marks: &[u8]) -> Option<Tested> {
    None
}

/// What an output holds before a call: no byte of it is 0, so that a byte which was not written shows.
const UNWRITTEN: u8 = 0xA5;

/// The result and the whole output.
pub fn rewrite(image: &[u8], node: u32, room: usize) -> Option<(Rewritten, Vec<u8>)> {
    let mut output = vec![UNWRITTEN; room];
    let result = rewrite_into(image, node, &mut output)?;
    Some((result, output))
}

#[cfg(feature = "library")]
pub fn rewrite_into(image: &[u8], node: u32, output: &mut [u8]) -> Option<Rewritten> {
    let exported::Rewritten { number, record, flag, records } = exported::rewrite(image, node, output);
    Some(Rewritten { number, record, flag, records })
}

#[cfg(not(feature = "library"))]
pub fn rewrite_into(_image: &[u8], _node: u32, _output: &mut [u8]) -> Option<Rewritten> {
    None
}

/// The result and the whole output.
pub fn pass(image: &[u8], budget: u64, room: usize) -> Option<(Passed, Vec<u8>)> {
    let mut output = vec![UNWRITTEN; room];
    let result = pass_into(image, budget, &mut output)?;
    Some((result, output))
}

#[cfg(feature = "library")]
pub fn pass_into(image: &[u8], budget: u64, output: &mut [u8]) -> Option<Passed> {
    let exported::Passed { number, record, visits, changed, finished, records } = exported::pass(image, budget, output);
    Some(Passed { number, record, visits, changed, finished, records })
}

#[cfg(not(feature = "library"))]
pub fn pass_into(_image: &[u8], _budget: u64, _output: &mut [u8]) -> Option<Passed> {
    None
}
