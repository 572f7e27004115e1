#[rustfmt::skip]
#[path = "../../../../../docs/src/src/simplify_expressions/reorder_predicates.rs"]
mod reorder_predicates;

#[rustfmt::skip]
#[path = "../../../../../docs/src/src/simplify_expressions/simplify_predicates.rs"]
mod simplify_predicates;

pub(crate) use reorder_predicates::reorder_predicates;
pub use simplify_predicates::simplify_predicates;
