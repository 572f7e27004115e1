//! Stand-in for what the four files take from the rest of their own crate.

use datafusion_common::Result;
use datafusion_common::tree_node::Transformed;
use datafusion_expr::LogicalPlan;
use optimizer::ApplyOrder;

/// The source hands it on and asks it nothing.
pub trait OptimizerConfig {}

pub trait OptimizerRule {
    fn name(&self) -> &str;

    fn apply_order(&self) -> Option<ApplyOrder>;

    fn supports_rewrite(&self) -> bool;

    fn rewrite(&self, plan: LogicalPlan, config: &dyn OptimizerConfig) -> Result<Transformed<LogicalPlan>>;
}

pub mod optimizer {
    pub enum ApplyOrder {
        TopDown,
    }
}

pub mod analyzer {
    pub mod type_coercion {
        use datafusion_common::tree_node::{Transformed, TreeNodeRewriter};
        use datafusion_common::{DFSchema, Result};
        use datafusion_expr::Expr;

        /// Operands of an accepted plan share a type already, so there is nothing to coerce.
        pub struct TypeCoercionRewriter<'a> {
            pub schema: &'a DFSchema,
        }

        impl TreeNodeRewriter for TypeCoercionRewriter<'_> {
            type Node = Expr;

            fn f_up(&mut self, expr: Expr) -> Result<Transformed<Expr>> {
                Ok(Transformed::no(expr))
            }
        }
    }
}
