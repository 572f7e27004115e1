//! Stand-in for `datafusion-physical-expr`: the value of a predicate over the batch of utils.rs, whose one column is NULL.
//!
//! Values are those of docs/MEANING.md. A predicate with another column, or with a function, has none: the schema
//! lacks the column, and no image says what a function does. The source then takes it for one that may keep NULLs.

use arrow::array::RecordBatch;
use datafusion_common::tree_node::TreeNode;
use datafusion_common::{Column, DFSchema, DataFusionError, Result, ScalarValue};
use datafusion_expr::execution_props::ExecutionProps;
use datafusion_expr::expr::{Between, InList};
use datafusion_expr::physical_planning_context::PhysicalPlanningContext;
use datafusion_expr::{BinaryExpr, ColumnarValue, Expr, Operator};

/// An expression whose value is known.
pub struct PhysicalExpr(ScalarValue);

impl PhysicalExpr {
    pub fn evaluate(&self, _batch: &RecordBatch) -> Result<ColumnarValue> {
        Ok(ColumnarValue::Scalar(self.0.clone()))
    }
}

pub fn create_physical_expr(
    expr: &Expr,
    schema: &DFSchema,
    _props: &ExecutionProps,
    _context: &PhysicalPlanningContext,
) -> Result<PhysicalExpr> {
    value(expr, schema).map(PhysicalExpr)
}

fn column_value(column: &Column, schema: &DFSchema) -> Result<ScalarValue> {
    match schema.maybe_index_of_column(column) {
        Some(_) => Ok(ScalarValue::Null),
        None => Err(DataFusionError::SchemaError(format!("no column {}", column.flat_name()))),
    }
}

fn value(expr: &Expr, schema: &DFSchema) -> Result<ScalarValue> {
    let operands: Vec<ScalarValue> =
        expr.children().into_iter().map(|child| value(child, schema)).collect::<Result<_>>()?;
    let truth = |value: Option<bool>| Ok(ScalarValue::Boolean(value));
    match expr {
        Expr::Column(column) => column_value(column, schema),
        Expr::Literal(value, _) => Ok(value.clone()),
        Expr::BinaryExpr(BinaryExpr { op: Operator::And, .. }) => {
            truth(and(is_true(&operands[0]), is_true(&operands[1])))
        }
        Expr::BinaryExpr(BinaryExpr { op: Operator::Or, .. }) => {
            truth(or(is_true(&operands[0]), is_true(&operands[1])))
        }
        Expr::BinaryExpr(BinaryExpr { op, .. }) => truth(compared(*op, &operands[0], &operands[1])?),
        Expr::Not(_) => truth(is_true(&operands[0]).map(|value| !value)),
        Expr::IsNull(_) => truth(Some(operands[0].is_null())),
        Expr::IsNotNull(_) => truth(Some(!operands[0].is_null())),
        Expr::IsTrue(_) => truth(Some(is_true(&operands[0]) == Some(true))),
        Expr::IsFalse(_) => truth(Some(is_true(&operands[0]) == Some(false))),
        Expr::IsUnknown(_) => truth(Some(is_true(&operands[0]).is_none())),
        Expr::IsNotTrue(_) => truth(Some(is_true(&operands[0]) != Some(true))),
        Expr::IsNotFalse(_) => truth(Some(is_true(&operands[0]) != Some(false))),
        Expr::IsNotUnknown(_) => truth(Some(is_true(&operands[0]).is_some())),
        Expr::Between(Between { negated, .. }) => {
            let low = compared(Operator::LtEq, &operands[1], &operands[0])?;
            let high = compared(Operator::LtEq, &operands[0], &operands[2])?;
            truth(and(low, high).map(|within| within != *negated))
        }
        Expr::InList(InList { negated, .. }) => truth(in_list(&operands)?.map(|found| found != *negated)),
        _ => Err(DataFusionError::Internal(format!("no value for {expr}"))),
    }
}

fn is_true(value: &ScalarValue) -> Option<bool> {
    match value {
        ScalarValue::Boolean(value) => *value,
        _ => None,
    }
}

fn and(left: Option<bool>, right: Option<bool>) -> Option<bool> {
    match (left, right) {
        (Some(false), _) | (_, Some(false)) => Some(false),
        (Some(true), Some(true)) => Some(true),
        _ => None,
    }
}

fn or(left: Option<bool>, right: Option<bool>) -> Option<bool> {
    and(left.map(|value| !value), right.map(|value| !value)).map(|neither| !neither)
}

/// A comparison with NULL is UNKNOWN.
fn compared(op: Operator, left: &ScalarValue, right: &ScalarValue) -> Result<Option<bool>> {
    if left.is_null() || right.is_null() {
        return Ok(None);
    }
    let order = left.try_cmp(right)?;
    Ok(Some(match op {
        Operator::Eq => order.is_eq(),
        Operator::NotEq => order.is_ne(),
        Operator::Lt => order.is_lt(),
        Operator::LtEq => order.is_le(),
        Operator::Gt => order.is_gt(),
        Operator::GtEq => order.is_ge(),
        _ => return Err(DataFusionError::Internal(format!("{op} compares nothing"))),
    }))
}

/// TRUE if an item equals the operand, FALSE if all differ from it, else UNKNOWN: one of them is NULL, or the operand is, and there is an
/// item. The operand stands before the items.
fn in_list(operands: &[ScalarValue]) -> Result<Option<bool>> {
    let (operand, items) = (&operands[0], &operands[1..]);
    items.iter().try_fold(Some(false), |found, item| Ok(or(found, compared(Operator::Eq, operand, item)?)))
}
