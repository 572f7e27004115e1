//! What the patched build does instead of the source, for each difference that is switched on.

use datafusion_common::{JoinType, Result, ScalarValue};
use datafusion_expr::{BinaryExpr, Expr, Operator};
use std::cell::Cell;
use std::cmp::Ordering;

/// Which of D1 to D5 are on.
pub type Switches = [bool; 5];

pub const ALL: Switches = [true; 5];
pub const NONE: Switches = [false; 5];

thread_local! {
    static SWITCHES: Cell<Switches> = const { Cell::new(ALL) };
}

/// For this thread, from now on.
pub fn set(switches: Switches) {
    SWITCHES.set(switches);
}

fn is_on(difference: usize) -> bool {
    SWITCHES.get()[difference - 1]
}

/// The operator of a comparison, and the literal that it compares a column with.
fn bound(expr: &Expr) -> Option<(Operator, &ScalarValue)> {
    let Expr::BinaryExpr(BinaryExpr { left, op, right }) = expr else { return None };
    right.as_literal().or(left.as_literal()).map(|literal| (*op, literal))
}

/// D1: two equalities of one column agree if their literals do.
pub fn equalities_agree(equality: &Expr, first: &Expr) -> bool {
    if is_on(1) { bound(equality) == bound(first) } else { equality == first }
}

/// D2: of equal bounds a later strict one replaces a held loose one, whichever side its literal stands on.
pub fn strict_replaces_loose(later: &Expr, held: &Expr) -> bool {
    let is_strict = |expr: &Expr| matches!(bound(expr), Some((Operator::Gt | Operator::Lt, _)));
    is_on(2) && is_strict(later) && !is_strict(held)
}

/// D3: NULL is the strongest bound of either kind.
pub fn compare_bounds(later: &ScalarValue, held: &ScalarValue, find_greater: bool) -> Result<Ordering> {
    let stronger = if find_greater { Ordering::Greater } else { Ordering::Less };
    match (is_on(3), later.is_null(), held.is_null()) {
        (true, true, false) => Ok(stronger),
        (true, false, true) => Ok(stronger.reverse()),
        _ => later.try_cmp(held),
    }
}

/// D4: an Aggregate without group entries takes nothing, a predicate without columns included.
pub fn takes_nothing(group_expr: &[Expr]) -> bool {
    is_on(4) && group_expr.is_empty()
}

/// D5: joins other than Inner infer nothing.
pub fn infers_nothing(join_type: JoinType) -> bool {
    is_on(5) && join_type != JoinType::Inner
}
