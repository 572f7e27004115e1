//! Values, truth in three values, comparisons.

use crate::kinds::{EQ, GT, LT, LT_EQ, NOT_EQ};
use std::cmp::Ordering;

/// NULL is also UNKNOWN.
#[derive(Clone, Copy, Debug, PartialEq, Eq, Hash)]
pub enum Value {
    Null,
    Integer(i64),
    Truth(bool),
}

use Value::{Integer, Null, Truth};

pub type Row = Vec<Value>;

/// Where a value stands in the order of its type; FALSE is below TRUE.
fn code(value: Value) -> i64 {
    match value {
        Null => 0,
        Integer(number) => number,
        Truth(truth) => i64::from(truth),
    }
}

/// And in three values.
pub fn both(left: Value, right: Value) -> Value {
    match (left, right) {
        (Truth(false), _) | (_, Truth(false)) => Truth(false),
        (Truth(true), Truth(true)) => Truth(true),
        _ => Null,
    }
}

pub fn negated(value: Value) -> Value {
    match value {
        Truth(truth) => Truth(!truth),
        _ => Null,
    }
}

pub fn tested(which: u32, value: Value) -> bool {
    match which {
        1 => value == Null,
        2 => value != Null,
        3 => value == Truth(true),
        4 => value == Truth(false),
        5 => value == Null,
        6 => value != Truth(true),
        7 => value != Truth(false),
        _ => value != Null,
    }
}

/// A comparison with NULL is UNKNOWN.
pub fn compared(operator: u32, left: Value, right: Value) -> Value {
    if left == Null || right == Null {
        return Null;
    }
    let order = code(left).cmp(&code(right));
    Truth(match operator {
        EQ => order.is_eq(),
        NOT_EQ => order.is_ne(),
        LT => order.is_lt(),
        LT_EQ => order.is_le(),
        GT => order.is_gt(),
        _ => order.is_ge(),
    })
}

/// UNKNOWN for a NULL operand, TRUE if an item equals it. With no equal item UNKNOWN if any item is NULL, FALSE if none is.
pub fn in_list(operand: Value, items: impl Iterator<Item = Value>) -> Value {
    let items: Vec<Value> = items.collect();
    match operand {
        Null => Null,
        _ if items.contains(&operand) => Truth(true),
        _ if items.contains(&Null) => Null,
        _ => Truth(false),
    }
}

/// The order of two rows' key values: by the first key that tells them apart, NULL last whichever way it sorts.
pub fn in_sort(left: &Row, right: &Row, descending: &[bool]) -> Ordering {
    let by_key = |((left, right), descending): ((&Value, &Value), &bool)| match (left, right) {
        (Null, Null) => Ordering::Equal,
        (Null, _) => Ordering::Greater,
        (_, Null) => Ordering::Less,
        _ if *descending => code(*right).cmp(&code(*left)),
        _ => code(*left).cmp(&code(*right)),
    };
    left.iter().zip(right).zip(descending).map(by_key).find(|order| order.is_ne()).unwrap_or(Ordering::Equal)
}
