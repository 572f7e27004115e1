//! The source, run: a plan of an image becomes a LogicalPlan, `PushDownFilter::rewrite` runs on it, and what it gives
//! becomes a plan of an image again. There are two builds: docs/src unchanged, and with D1 to D5, each of which can be
//! switched off.

mod from_plan;
mod into_plan;
pub mod rule;
mod words;

pub use patched::switches::{Switches, ALL, NONE};

use crate::image::Tree;
use crate::kinds::{filter, FILTER};
use datafusion_expr::utils::conjunction;
use datafusion_expr::Expr;
use datafusion_optimizer::{OptimizerConfig, OptimizerRule};

#[derive(Clone, Copy, Debug, PartialEq, Eq)]
pub enum Build {
    Unchanged,
    Patched(Switches),
}

/// What the source makes of a node.
pub struct Transformed {
    pub plan: Tree,
    pub flag: bool,
    /// The node as it stood after each merge of two Filters, not yet rewritten.
    pub merges: Vec<Tree>,
}

struct NoConfig;

impl OptimizerConfig for NoConfig {}

/// Runs the source on a plan, which must be one that is accepted.
pub fn rewrite(build: Build, node: &Tree) -> Transformed {
    let rule: &dyn OptimizerRule = match build {
        Build::Unchanged => &unchanged::push_down_filter::PushDownFilter {},
        Build::Patched(switches) => {
            patched::switches::set(switches);
            &patched::push_down_filter::PushDownFilter {}
        }
    };
    let result = rule.rewrite(into_plan::plan(node), &NoConfig).expect("the source answers for every accepted plan");
    let merges = merged_filters(node, indexmap::collected());
    Transformed { plan: from_plan::plan(&result.data), flag: result.transformed, merges }
}

/// The lists that the source merged, in order, each over the input of the Filter that it took in: the first took in the
/// Filter below the node, the second the one below that.
fn merged_filters(node: &Tree, lists: Vec<Vec<Expr>>) -> Vec<Tree> {
    let mut upper = node;
    let mut merges = Vec::new();
    for list in lists {
        let lower = &upper.children[1];
        assert_eq!(lower.label.kind, FILTER, "a merge takes in a Filter");
        let predicate = conjunction(list).expect("a merge has conjuncts");
        merges.push(filter(from_plan::expr(&predicate), lower.children[1].clone()));
        upper = lower;
    }
    merges
}

#[cfg(test)]
mod tests {
    use super::*;
    use crate::kinds::{field, scan, FUNCTION, OF_BOOLEAN, OF_INTEGER};
    use crate::meaning::{value_on, Value};
    use crate::random::{accepted, size, Draw, Field, Random};
    use arrow::array::RecordBatch;
    use arrow::datatypes::Schema;
    use datafusion_common::ScalarValue;
    use datafusion_expr::ColumnarValue;
    use datafusion_physical_expr::create_physical_expr;
    use std::sync::Arc;

    /// On NULL columns the stand-in that the source asks for a predicate's value has the meaning's.
    #[test]
    fn the_stand_in_gives_predicates_their_meaning() {
        let fields = [(1, OF_INTEGER), (2, OF_BOOLEAN)].map(|(name, of)| Field { qualifier: 1, name, of });
        let input = scan(1, fields.map(|Field { qualifier, name, of }| field(qualifier, name, of, false)).to_vec());
        let of_input = into_plan::plan(&input);
        let batch = RecordBatch::try_new(Arc::new(Schema::new(vec![])), vec![]).expect("a batch");
        let mut met = [0; 3];
        for case in 0..20_000 {
            let random = &mut Random::of_case(7, case);
            let mut draw = Draw::new(random, 40);
            let predicate = if case % 2 == 0 { draw.listed(&fields) } else { draw.expr(&fields, OF_BOOLEAN, 3) };
            if predicate.parent_first().iter().any(|(_, tree)| tree.label.kind == FUNCTION) {
                continue;
            }
            let expr = into_plan::expr(&predicate);
            let physical = create_physical_expr(&expr, of_input.schema(), &Default::default(), &Default::default());
            let found = match physical.and_then(|physical| physical.evaluate(&batch)) {
                Ok(ColumnarValue::Scalar(ScalarValue::Boolean(Some(truth)))) => Value::Truth(truth),
                Ok(ColumnarValue::Scalar(ScalarValue::Boolean(None) | ScalarValue::Null)) => Value::Null,
                _ => panic!("{expr} has no truth"),
            };
            assert_eq!(found, value_on(&predicate, &input, &[Value::Null, Value::Null]), "{expr}");
            met[match found {
                Value::Truth(truth) => usize::from(truth),
                _ => 2,
            }] += 1;
        }
        assert!(met.iter().all(|&count| count > 1000), "{met:?}");
    }

    #[test]
    fn a_plan_comes_back_as_it_was() {
        for case in 0..2000 {
            let random = &mut Random::of_case(9, case);
            let records = size(random);
            let plan = accepted(random, records).plan;
            assert_eq!(from_plan::plan(&into_plan::plan(&plan)), plan, "case {case}");
        }
    }
}
