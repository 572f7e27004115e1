//! The patched rule without images around it, for measuring: on plans of the source that are built already.

use super::{from_plan, into_plan, NoConfig};
use crate::image::Tree;
pub use datafusion_expr::LogicalPlan;
use datafusion_expr::{logical_plan, Expr};
use datafusion_optimizer::OptimizerRule;
use patched::push_down_filter::PushDownFilter;
use std::sync::Arc;

pub fn built(plan: &Tree) -> LogicalPlan {
    into_plan::plan(plan)
}

pub fn tree(plan: &LogicalPlan) -> Tree {
    from_plan::plan(plan)
}

/// The rule at the root.
pub fn at_root(plan: LogicalPlan) -> LogicalPlan {
    let result = PushDownFilter {}.rewrite(plan, &NoConfig);
    result.expect("the source answers for every accepted plan").data
}

/// The rule at the root, then likewise at the plans below what stands there now, as an optimizer applies it.
pub fn top_down(plan: LogicalPlan) -> LogicalPlan {
    with_inputs(at_root(plan), |input| Arc::new(top_down(Arc::unwrap_or_clone(input))))
}

/// The plan over what is made of each of its inputs.
fn with_inputs(plan: LogicalPlan, made: fn(Arc<LogicalPlan>) -> Arc<LogicalPlan>) -> LogicalPlan {
    use LogicalPlan::*;
    match plan {
        TableScan(scan) => TableScan(scan),
        Filter(plan) => Filter(logical_plan::Filter { input: made(plan.input), ..plan }),
        Projection(plan) => Projection(logical_plan::Projection { input: made(plan.input), ..plan }),
        Join(plan) => Join(logical_plan::Join { left: made(plan.left), right: made(plan.right), ..plan }),
        SubqueryAlias(plan) => SubqueryAlias(logical_plan::SubqueryAlias { input: made(plan.input), ..plan }),
        Union(plan) => Union(logical_plan::Union { inputs: plan.inputs.into_iter().map(made).collect(), ..plan }),
        Distinct(logical_plan::Distinct::All(input)) => Distinct(logical_plan::Distinct::All(made(input))),
        Sort(plan) => Sort(logical_plan::Sort { input: made(plan.input), ..plan }),
        Repartition(plan) => Repartition(logical_plan::Repartition { input: made(plan.input) }),
        Limit(plan) => Limit(logical_plan::Limit { input: made(plan.input), ..plan }),
        Aggregate(plan) => Aggregate(logical_plan::Aggregate { input: made(plan.input), ..plan }),
        Window(plan) => Window(logical_plan::Window { input: made(plan.input), ..plan }),
        Distinct(logical_plan::Distinct::On(_)) | Unnest(_) | Extension(_) => unreachable!("no image holds this plan"),
    }
}

/// Forgets the sets that the stand-in for indexmap keeps, which `source::rewrite` takes for its own. To be called after the
/// rule has run.
pub fn forget_merges() {
    indexmap::collected::<Expr>();
}

#[cfg(test)]
mod tests {
    use super::*;
    use crate::rewrites::case;
    use crate::rewriting::{pass_over, PassAnswer};
    use crate::source::{Build, ALL};

    #[test]
    fn top_down_is_the_pass() {
        let mut compared = 0;
        for number in 0..1000 {
            let plan = case(31, number).plan;
            if plan.size() > 300 {
                continue;
            }
            if let PassAnswer::Passed { plan: passed, .. } = pass_over(Build::Patched(ALL), &plan, u64::MAX) {
                assert_eq!(tree(&top_down(built(&plan))), passed, "case {number}");
                forget_merges();
                compared += 1;
            }
        }
        assert!(compared > 500, "{compared}");
    }
}
