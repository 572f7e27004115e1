//! Columns replaced by columns.

use crate::Expr;
use datafusion_common::tree_node::{Transformed, TransformedResult, TreeNode};
use datafusion_common::{Column, Result};
use std::collections::HashMap;

pub fn replace_col(expr: Expr, replace_map: &HashMap<&Column, &Column>) -> Result<Expr> {
    let replaced = expr.transform_up(|expr| match expr.try_as_col().and_then(|column| replace_map.get(column)) {
        Some(&column) => Ok(Transformed::yes(Expr::Column(column.clone()))),
        None => Ok(Transformed::no(expr)),
    });
    replaced.data()
}

/// Named by utils.rs, used by none of the four files.
pub struct NamePreserver;
