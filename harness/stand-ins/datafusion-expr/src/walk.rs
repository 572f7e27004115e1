//! The children of an expression, in the order in which an image has them.

use crate::expr::{AggregateFunction, Alias, Between, BinaryExpr, Expr, InList, ScalarFunction, WindowFunction};
use datafusion_common::Result;
use datafusion_common::tree_node::TreeNode;

impl TreeNode for Expr {
    fn children(&self) -> Vec<&Expr> {
        match self {
            Expr::Alias(Alias { expr, .. })
            | Expr::Not(expr)
            | Expr::IsNotNull(expr)
            | Expr::IsNull(expr)
            | Expr::IsTrue(expr)
            | Expr::IsFalse(expr)
            | Expr::IsUnknown(expr)
            | Expr::IsNotTrue(expr)
            | Expr::IsNotFalse(expr)
            | Expr::IsNotUnknown(expr) => vec![expr],
            Expr::BinaryExpr(BinaryExpr { left, right, .. }) => vec![left, right],
            Expr::Between(Between { expr, low, high, .. }) => vec![expr, low, high],
            Expr::InList(InList { expr, list, .. }) => std::iter::once(&**expr).chain(list).collect(),
            Expr::ScalarFunction(ScalarFunction { args, .. }) => args.iter().collect(),
            Expr::AggregateFunction(AggregateFunction { args, .. }) => args.iter().collect(),
            Expr::WindowFunction(WindowFunction { params, .. }) => {
                params.args.iter().chain(&params.partition_by).collect()
            }
            _ => vec![],
        }
    }

    fn map_children(mut self, mut f: impl FnMut(Expr) -> Result<Expr>) -> Result<Expr> {
        for child in children_mut(&mut self) {
            let taken = std::mem::replace(child, Expr::Literal(datafusion_common::ScalarValue::Null, None));
            *child = f(taken)?;
        }
        Ok(self)
    }
}

fn children_mut(expr: &mut Expr) -> Vec<&mut Expr> {
    match expr {
        Expr::Alias(Alias { expr, .. })
        | Expr::Not(expr)
        | Expr::IsNotNull(expr)
        | Expr::IsNull(expr)
        | Expr::IsTrue(expr)
        | Expr::IsFalse(expr)
        | Expr::IsUnknown(expr)
        | Expr::IsNotTrue(expr)
        | Expr::IsNotFalse(expr)
        | Expr::IsNotUnknown(expr) => vec![expr],
        Expr::BinaryExpr(BinaryExpr { left, right, .. }) => vec![left, right],
        Expr::Between(Between { expr, low, high, .. }) => vec![expr, low, high],
        Expr::InList(InList { expr, list, .. }) => std::iter::once(&mut **expr).chain(list).collect(),
        Expr::ScalarFunction(ScalarFunction { args, .. }) => args.iter_mut().collect(),
        Expr::AggregateFunction(AggregateFunction { args, .. }) => args.iter_mut().collect(),
        Expr::WindowFunction(WindowFunction { params, .. }) => {
            params.args.iter_mut().chain(&mut params.partition_by).collect()
        }
        _ => vec![],
    }
}
