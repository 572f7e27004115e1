//! The four files of docs/src as they stand, over the stand-ins.
//!
//! The files name functions that nothing here calls, and variants that no image holds; of that the compiler would warn.
#![allow(dead_code, unreachable_code, unreachable_patterns, unused_imports, unused_variables)]
#![allow(deprecated, unfulfilled_lint_expectations, clippy::all)]

pub use datafusion_optimizer::{OptimizerConfig, OptimizerRule, analyzer, optimizer};

#[rustfmt::skip]
#[path = "../../../../docs/src/src/push_down_filter.rs"]
pub mod push_down_filter;

#[path = "simplify_expressions/mod.rs"]
pub mod simplify_expressions;

#[rustfmt::skip]
#[path = "../../../../docs/src/src/utils.rs"]
pub mod utils;
