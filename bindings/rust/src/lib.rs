//! Filter push-down over query plans, by a static library that is proved to keep the rows of plans without volatile functions.
//!
//! A plan is built, checked, and passed over once: its filters move towards the tables.
//!
//! ```
//! # #[cfg(feature = "library")] {
//! use push_down_filter::{col, field, scan, JoinKind, Names, Type::Integer};
//!
//! let left = scan(1, [field(1, 1, Integer).marked(), field(1, 2, Integer)]);
//! let right = scan(2, [field(0, 1, Integer).marked(), field(0, 3, Integer)]).alias(2);
//! let joined = left.join(JoinKind::Inner, right).on(col(1, 1), col(2, 1)).plan();
//! let plan = joined.filter(col(1, 1).gt(5).and(col(1, 2).lt(col(2, 3))));
//!
//! plan.check()?;
//! let passed = plan.pass(10_000)?;
//! assert!(passed.finished);
//! assert_eq!(passed.plan.to_text(&Names::NONE), "\
//! Join Inner on [t1.c1 = t2.c1] filter t1.c2 < t2.c3
//!   TableScan 1 [t1.c1:int:marked, t1.c2:int] filters [t1.c1 > 5]
//!   SubqueryAlias t2
//!     TableScan 2 [c1:int:marked, c3:int] filters [c1 > 5]
//! ");
//! # }
//! # Ok::<(), push_down_filter::Error>(())
//! ```
//!
//! Plans travel as images: 1 to 2,048 records of 32 bytes, eight little-endian words each: kind, p, q, r, lo, hi,
//! first, next ([`image`], [`kinds`]). The calls on bytes, `check`, `rewrite`, `pass` and `row_test`, take any bytes:
//! what is no image of a plan is refused with a [`Refusal`], and [`explain`] says what is wrong there. They keep
//! nothing between calls: any number of threads may call them at once, each with 1 MiB of stack or more.
//!
//! Tables, qualifiers, names and functions are numbers; [`Names`] has words for them in texts ([`text`]).
//!
//! The feature `library`, on by default, has the calls and links `libpush_down_filter.a`: from the folder that the
//! environment variable `PUSH_DOWN_FILTER_LIB_DIR` names at build time, else from the repository's own
//! target/staticlib. Without it there are plans, images and texts alone.

#![warn(missing_docs)]

#[cfg(feature = "library")]
mod calls;
mod explain;
#[cfg(feature = "library")]
pub mod exported;
mod exprs;
mod form;
pub mod image;
pub mod kinds;
pub mod limits;
mod numbered;
#[cfg(feature = "library")]
mod plan_calls;
mod plans;
mod refusals;
mod schema;
pub mod text;
mod trees;

#[cfg(feature = "library")]
pub use calls::{check, pass, rewrite, row_test, version, Passed, Rewritten, Truth};
pub use explain::explain;
pub use exprs::{all, bare, col, count, function, lit, max, min, name, not, null, Expr, Name};
pub use image::RECORD_BYTES;
pub use numbered::{AggregateKind, JoinKind, Operator, Test, Type};
#[cfg(feature = "library")]
pub use plan_calls::{PassedPlan, RewrittenPlan, Value};
pub use plans::{field, scan, union, Aggregate, AggregateEntry, Entry, Field, Join, Over, Plan, SortKey, WindowEntry};
pub use refusals::{Error, Reason, Refusal};
pub use text::Names;

/// How many records an image has at most.
pub const MAX_RECORDS: usize = limits::RECORDS;

/// No answer is longer: an output of so many bytes is never too short.
pub const MAX_BYTES: usize = MAX_RECORDS * RECORD_BYTES;
