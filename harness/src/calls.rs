//! Rewrite and pass by the library where it is linked, else by the patched source.

use crate::ffi;
use crate::rewriting::{self, Passed, Rewritten};
use crate::source::{Build, ALL};

const PATCHED: Build = Build::Patched(ALL);

pub fn rewrite(image: &[u8], node: u32, room: usize) -> (Rewritten, Vec<u8>) {
    ffi::rewrite(image, node, room).unwrap_or_else(|| rewriting::rewrite(PATCHED, image, node, room))
}

pub fn pass(image: &[u8], budget: u64, room: usize) -> (Passed, Vec<u8>) {
    ffi::pass(image, budget, room).unwrap_or_else(|| rewriting::pass(PATCHED, image, budget, room))
}

/// Who answers a call.
pub fn answered_by() -> &'static str {
    match ffi::LINKED {
        true => "the library",
        false => "the patched source (the library's is not linked)",
    }
}
