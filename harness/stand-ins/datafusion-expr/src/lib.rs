//! Stand-in for `datafusion-expr`: expressions and logical plans, as far as an image can hold them.

pub mod expr;
pub mod expr_rewriter;
pub mod logical_plan;
mod operator;
pub mod utils;
mod walk;

use datafusion_common::ScalarValue;

pub use expr::{BinaryExpr, Expr, ExpressionPlacement};
pub use logical_plan::{Distinct, Filter, LogicalPlan, Projection, TableProviderFilterPushDown};
pub use operator::Operator;

pub fn and(left: Expr, right: Expr) -> Expr {
    expr::binary(left, Operator::And, right)
}

pub fn or(left: Expr, right: Expr) -> Expr {
    expr::binary(left, Operator::Or, right)
}

/// What a physical expression gives for a batch.
pub enum ColumnarValue {
    Array(arrow::array::ArrayRef),
    Scalar(ScalarValue),
}

pub mod execution_props {
    #[derive(Default)]
    pub struct ExecutionProps;
}

pub mod physical_planning_context {
    #[derive(Default)]
    pub struct PhysicalPlanningContext;
}
