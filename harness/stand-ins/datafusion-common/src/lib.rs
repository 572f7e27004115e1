//! Stand-in for `datafusion-common`: columns, schemas, values, join types, walks over trees.

mod column;
mod error;
mod join_type;
mod scalar;
mod schema;
pub mod tree_node;

pub use column::{Column, TableReference};
pub use error::{DataFusionError, Result};
pub use join_type::JoinType;
pub use scalar::ScalarValue;
pub use schema::{DFSchema, DFSchemaRef, qualified_name};

pub mod instant {
    pub use std::time::Instant;
}

pub mod cast {
    use crate::Result;
    use arrow::array::{ArrayRef, BooleanArray};

    pub fn as_boolean_array(array: &ArrayRef) -> Result<&BooleanArray> {
        Ok(array)
    }
}

/// What no image can hold: subqueries, Unnest and the like. A value of this type does not exist.
#[derive(Clone, Copy, Debug, PartialEq, Eq, Hash)]
pub enum Never {}
