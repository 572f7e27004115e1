//! What proofs cannot cover, tested: the boundary to C, and that the definitions are the right ones.

pub mod calls;
pub mod checker;
pub mod damage;
pub mod differences;
pub mod edges;
pub mod ffi;
pub mod meaning;
pub mod random;
pub mod rewrites;
pub mod rewriting;
pub mod row_tests;
pub mod rows;
pub mod sets;
pub mod source;
pub mod stored;
pub mod sweeps;

/// Records, kinds, limits and texts are the Rust crate's.
pub use push_down_filter::{image, kinds, limits, text};
