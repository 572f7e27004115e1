//! Conjunctions split and joined.

use crate::expr::{BinaryExpr, Expr};
use crate::{Operator, and};
use datafusion_common::{Column, Result};
use std::collections::HashSet;

/// The conjuncts of a predicate: it splits at its Ands, left operand first.
pub fn split_conjunction(expr: &Expr) -> Vec<&Expr> {
    match expr {
        Expr::BinaryExpr(BinaryExpr { left, op: Operator::And, right }) => {
            let mut conjuncts = split_conjunction(left);
            conjuncts.extend(split_conjunction(right));
            conjuncts
        }
        _ => vec![expr],
    }
}

pub fn split_conjunction_owned(expr: Expr) -> Vec<Expr> {
    match expr {
        Expr::BinaryExpr(BinaryExpr { left, op: Operator::And, right }) => {
            let mut conjuncts = split_conjunction_owned(*left);
            conjuncts.extend(split_conjunction_owned(*right));
            conjuncts
        }
        _ => vec![expr],
    }
}

/// The list joined left-deep, none of an empty one.
pub fn conjunction(filters: impl IntoIterator<Item = Expr>) -> Option<Expr> {
    filters.into_iter().reduce(and)
}

pub fn expr_to_columns(expr: &Expr, accum: &mut HashSet<Column>) -> Result<()> {
    accum.extend(expr.column_refs().into_iter().cloned());
    Ok(())
}
