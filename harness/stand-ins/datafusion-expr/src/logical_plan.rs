//! Logical plans. Unnest, Extension and `Distinct::On` are named by the source; no image holds one.

use crate::Expr;
pub use datafusion_common::JoinType;
use datafusion_common::{Column, DFSchemaRef, Never, Result};
use std::any::Any;
use std::collections::HashSet;
use std::sync::Arc;

#[derive(Clone)]
pub enum LogicalPlan {
    Projection(Projection),
    Filter(Filter),
    Window(Window),
    Aggregate(Aggregate),
    Sort(Sort),
    Join(Join),
    Repartition(Repartition),
    Union(Union),
    TableScan(TableScan),
    SubqueryAlias(SubqueryAlias),
    Limit(Limit),
    Distinct(Distinct),
    Unnest(Unnest),
    Extension(Extension),
}

#[derive(Clone)]
pub struct Projection {
    pub expr: Vec<Expr>,
    pub input: Arc<LogicalPlan>,
    pub schema: DFSchemaRef,
}

#[derive(Clone)]
pub struct Filter {
    pub predicate: Expr,
    pub input: Arc<LogicalPlan>,
}

#[derive(Clone)]
pub struct Window {
    pub input: Arc<LogicalPlan>,
    pub window_expr: Vec<Expr>,
    pub schema: DFSchemaRef,
}

#[derive(Clone)]
pub struct Aggregate {
    pub input: Arc<LogicalPlan>,
    pub group_expr: Vec<Expr>,
    pub aggr_expr: Vec<Expr>,
    pub schema: DFSchemaRef,
}

#[derive(Clone)]
pub struct SortExpr {
    pub expr: Expr,
    pub asc: bool,
}

#[derive(Clone)]
pub struct Sort {
    pub expr: Vec<SortExpr>,
    pub input: Arc<LogicalPlan>,
    pub fetch: Option<usize>,
}

#[derive(Clone)]
pub struct Join {
    pub left: Arc<LogicalPlan>,
    pub right: Arc<LogicalPlan>,
    pub on: Vec<(Expr, Expr)>,
    pub filter: Option<Expr>,
    pub join_type: JoinType,
    pub schema: DFSchemaRef,
    pub null_aware: bool,
}

#[derive(Clone)]
pub struct Repartition {
    pub input: Arc<LogicalPlan>,
}

#[derive(Clone)]
pub struct Union {
    pub inputs: Vec<Arc<LogicalPlan>>,
    pub schema: DFSchemaRef,
}

#[derive(Clone)]
pub struct TableScan {
    pub table_name: String,
    pub source: Arc<dyn TableSource>,
    pub projected_schema: DFSchemaRef,
    pub filters: Vec<Expr>,
}

#[derive(Clone)]
pub struct SubqueryAlias {
    pub input: Arc<LogicalPlan>,
    pub alias: String,
    pub schema: DFSchemaRef,
}

#[derive(Clone)]
pub struct Limit {
    pub skip: usize,
    pub fetch: usize,
    pub input: Arc<LogicalPlan>,
}

#[derive(Clone)]
pub enum Distinct {
    All(Arc<LogicalPlan>),
    On(DistinctOn),
}

#[derive(Clone)]
pub struct DistinctOn {
    pub input: Arc<LogicalPlan>,
    pub never: Never,
}

#[derive(Clone)]
pub struct Unnest {
    pub input: Arc<LogicalPlan>,
    pub struct_type_columns: Vec<usize>,
    pub list_type_columns: Vec<(usize, ColumnUnnestList)>,
    pub never: Never,
}

#[derive(Clone)]
pub struct ColumnUnnestList {
    pub output_column: Column,
}

#[derive(Clone)]
pub struct Extension {
    pub node: ExtensionNode,
}

#[derive(Clone, Copy)]
pub struct ExtensionNode(Never);

impl ExtensionNode {
    pub fn inputs(&self) -> Vec<&LogicalPlan> {
        match self.0 {}
    }

    pub fn prevent_predicate_push_down_columns(&self) -> HashSet<String> {
        match self.0 {}
    }
}

/// What a table's provider answers about a predicate.
#[derive(Clone, Copy, Debug, PartialEq, Eq)]
pub enum TableProviderFilterPushDown {
    Unsupported,
    Inexact,
    Exact,
}

pub trait TableSource: Any + Send + Sync {
    /// An answer for each predicate.
    fn supports_filters_pushdown(&self, filters: &[&Expr]) -> Result<Vec<TableProviderFilterPushDown>>;
}

impl Filter {
    pub fn new(predicate: Expr, input: Arc<LogicalPlan>) -> Filter {
        Filter { predicate, input }
    }

    pub fn try_new(predicate: Expr, input: Arc<LogicalPlan>) -> Result<Filter> {
        Ok(Filter::new(predicate, input))
    }
}

impl LogicalPlan {
    /// The schema that a plan was made with, or else its input's.
    pub fn schema(&self) -> &DFSchemaRef {
        match self {
            LogicalPlan::Projection(plan) => &plan.schema,
            LogicalPlan::Filter(plan) => plan.input.schema(),
            LogicalPlan::Window(plan) => &plan.schema,
            LogicalPlan::Aggregate(plan) => &plan.schema,
            LogicalPlan::Sort(plan) => plan.input.schema(),
            LogicalPlan::Join(plan) => &plan.schema,
            LogicalPlan::Repartition(plan) => plan.input.schema(),
            LogicalPlan::Union(plan) => &plan.schema,
            LogicalPlan::TableScan(plan) => &plan.projected_schema,
            LogicalPlan::SubqueryAlias(plan) => &plan.schema,
            LogicalPlan::Limit(plan) => plan.input.schema(),
            LogicalPlan::Distinct(Distinct::All(input)) => input.schema(),
            LogicalPlan::Distinct(Distinct::On(plan)) => match plan.never {},
            LogicalPlan::Unnest(plan) => match plan.never {},
            LogicalPlan::Extension(plan) => match plan.node.0 {},
        }
    }

    /// A Limit has a fetch, a Sort may have one.
    pub fn fetch(&self) -> Result<Option<usize>> {
        Ok(match self {
            LogicalPlan::Sort(sort) => sort.fetch,
            LogicalPlan::Limit(limit) => Some(limit.fetch),
            _ => None,
        })
    }

    pub fn skip(&self) -> Result<Option<usize>> {
        Ok(match self {
            LogicalPlan::Limit(limit) => Some(limit.skip),
            _ => None,
        })
    }

    /// Asked of an Extension alone.
    pub fn expressions(&self) -> Vec<Expr> {
        unreachable!("no image holds an Extension")
    }

    pub fn with_new_exprs(&self, _expr: Vec<Expr>, _inputs: Vec<LogicalPlan>) -> Result<LogicalPlan> {
        unreachable!("no image holds an Extension")
    }

    /// Nothing is logged, so plans have no text.
    pub fn display_indent(&self) -> &'static str {
        ""
    }

    pub fn display_indent_schema(&self) -> &'static str {
        ""
    }
}
