//! The four files of docs/src with D1 to D5 put in by build.rs, each of which can be switched off.
//!
//! The files name functions that nothing here calls, and variants that no image holds; of that the compiler would warn.
#![allow(dead_code, unreachable_code, unreachable_patterns, unused_imports, unused_variables)]
#![allow(deprecated, unfulfilled_lint_expectations, clippy::all)]

pub mod switches;

include!(concat!(env!("OUT_DIR"), "/modules.rs"));

pub use datafusion_optimizer::{OptimizerConfig, OptimizerRule, analyzer, optimizer};

pub mod simplify_expressions {
    pub(crate) use crate::reorder::reorder_predicates;
    pub use crate::simplify::simplify_predicates;
}
