//! Plans and expressions of the source as trees of records.

use super::into_plan::Marked;
use super::words::{number, place, qualifier, JOINS, OPERATORS};
use crate::image::Tree;
use crate::kinds::{self, AGGREGATE, OF_BOOLEAN, OF_INTEGER, PROJECTION, WINDOW};
use datafusion_common::tree_node::TreeNode;
use datafusion_common::ScalarValue;
use datafusion_expr::expr::{AggregateFunction, Alias, ScalarFunction, WindowFunction};
use datafusion_expr::logical_plan::{Distinct, Join, LogicalPlan, TableScan};
use datafusion_expr::Expr;
use std::any::Any;

pub fn plan(of: &LogicalPlan) -> Tree {
    match of {
        LogicalPlan::TableScan(of) => scan(of),
        LogicalPlan::Filter(of) => kinds::filter(expr(&of.predicate), plan(&of.input)),
        LogicalPlan::Projection(of) => kinds::over(PROJECTION, named_all(&of.expr), plan(&of.input)),
        LogicalPlan::Join(of) => join(of),
        LogicalPlan::SubqueryAlias(of) => kinds::alias(number(&of.alias), plan(&of.input)),
        LogicalPlan::Union(of) => kinds::union(of.inputs.iter().map(|input| plan(input)).collect()),
        LogicalPlan::Distinct(Distinct::All(input)) => kinds::distinct(plan(input)),
        LogicalPlan::Sort(of) => {
            let keys = of.expr.iter().map(|key| kinds::sort_key(!key.asc, expr(&key.expr))).collect();
            kinds::sort(of.fetch.map(|fetch| fetch as u32), keys, plan(&of.input))
        }
        LogicalPlan::Repartition(of) => kinds::repartition(plan(&of.input)),
        LogicalPlan::Limit(of) => kinds::limit(of.fetch as u32, of.skip as u32, plan(&of.input)),
        LogicalPlan::Aggregate(of) => {
            let entries = [named_all(&of.group_expr), named_all(&of.aggr_expr)].concat();
            kinds::over(AGGREGATE, entries, plan(&of.input))
        }
        LogicalPlan::Window(of) => kinds::over(WINDOW, named_all(&of.window_expr), plan(&of.input)),
        LogicalPlan::Distinct(Distinct::On(_)) | LogicalPlan::Unnest(_) | LogicalPlan::Extension(_) => {
            unreachable!("no image holds this plan")
        }
    }
}

fn scan(of: &TableScan) -> Tree {
    let source: &dyn Any = of.source.as_ref();
    let marked: &Marked = source.downcast_ref().expect("every scan's source is of marked fields");
    let filters = of.filters.iter().map(expr).collect();
    kinds::scan(number(&of.table_name), [marked.fields.clone(), filters].concat())
}

fn join(of: &Join) -> Tree {
    let mut children = vec![plan(&of.left), plan(&of.right)];
    children.extend(of.on.iter().map(|(left, right)| kinds::key_pair(expr(left), expr(right))));
    children.extend(of.filter.iter().map(expr));
    kinds::join(place(&JOINS, &of.join_type), children)
}

fn named_all(entries: &[Expr]) -> Vec<Tree> {
    entries.iter().map(named).collect()
}

/// A part by its name: an entry, an aggregate or a window function.
fn named(entry: &Expr) -> Tree {
    let Expr::Alias(Alias { expr: inner, relation, name }) = entry else { panic!("{entry} has no name") };
    let (p, q) = (qualifier(relation), number(name));
    match &**inner {
        Expr::AggregateFunction(AggregateFunction { number, args }) => {
            kinds::aggregate_entry(p, q, *number, expr(&args[0]))
        }
        Expr::WindowFunction(WindowFunction { number, params }) => {
            kinds::window_entry(p, q, *number, params.args.iter().chain(&params.partition_by).map(expr).collect())
        }
        inner => kinds::entry(p, q, expr(inner)),
    }
}

pub fn expr(of: &Expr) -> Tree {
    let children: Vec<Tree> = of.children().into_iter().map(expr).collect();
    match of {
        Expr::Column(column) => kinds::column(qualifier(&column.relation), number(&column.name)),
        Expr::Literal(value, _) => literal(value),
        Expr::BinaryExpr(binary) => kinds::of_children(kinds::BINARY, place(&OPERATORS, &binary.op), children),
        Expr::Not(_) => kinds::of_children(kinds::NOT, 0, children),
        Expr::IsNull(_) => kinds::of_children(kinds::TEST, 1, children),
        Expr::IsNotNull(_) => kinds::of_children(kinds::TEST, 2, children),
        Expr::IsTrue(_) => kinds::of_children(kinds::TEST, 3, children),
        Expr::IsFalse(_) => kinds::of_children(kinds::TEST, 4, children),
        Expr::IsUnknown(_) => kinds::of_children(kinds::TEST, 5, children),
        Expr::IsNotTrue(_) => kinds::of_children(kinds::TEST, 6, children),
        Expr::IsNotFalse(_) => kinds::of_children(kinds::TEST, 7, children),
        Expr::IsNotUnknown(_) => kinds::of_children(kinds::TEST, 8, children),
        Expr::Between(between) => kinds::of_children(kinds::BETWEEN, between.negated as u32, children),
        Expr::InList(list) => kinds::in_list(list.negated, children),
        Expr::ScalarFunction(ScalarFunction { number, is_volatile, is_leafward, is_boolean, .. }) => {
            let marks = u32::from(*is_volatile) + 2 * u32::from(*is_leafward);
            kinds::function(*number, marks, if *is_boolean { OF_BOOLEAN } else { OF_INTEGER }, children)
        }
        other => panic!("no record holds {other}"),
    }
}

fn literal(value: &ScalarValue) -> Tree {
    match value {
        ScalarValue::Int64(Some(value)) => kinds::integer(*value),
        ScalarValue::Int64(None) => kinds::null(OF_INTEGER),
        ScalarValue::Boolean(Some(value)) => kinds::boolean(*value),
        ScalarValue::Boolean(None) => kinds::null(OF_BOOLEAN),
        ScalarValue::Null => panic!("every NULL of a plan has a type"),
    }
}
