use crate::{DataFusionError, Result};
use std::cmp::Ordering;

/// A literal, none for NULL. `Null` is the NULL of no type that utils.rs puts in the place of columns.
#[derive(Clone, Debug, PartialEq, Eq, Hash)]
pub enum ScalarValue {
    Null,
    Boolean(Option<bool>),
    Int64(Option<i64>),
}

impl ScalarValue {
    pub fn is_null(&self) -> bool {
        matches!(self, ScalarValue::Null | ScalarValue::Boolean(None) | ScalarValue::Int64(None))
    }

    /// The order of values of one type; NULL is the least, FALSE is below TRUE.
    pub fn try_cmp(&self, other: &ScalarValue) -> Result<Ordering> {
        match (self, other) {
            (ScalarValue::Int64(value), ScalarValue::Int64(other)) => Ok(value.cmp(other)),
            (ScalarValue::Boolean(value), ScalarValue::Boolean(other)) => Ok(value.cmp(other)),
            _ => Err(DataFusionError::Internal(format!("cannot compare {self:?} with {other:?}"))),
        }
    }
}
