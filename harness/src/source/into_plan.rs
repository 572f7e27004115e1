//! Trees of records as expressions and plans of the source.

use super::words::{name, relation, JOINS, OPERATORS, TESTS};
use crate::image::{Label, Tree};
use crate::kinds::*;
use arrow::datatypes::{DataType, Field};
use datafusion_common::{Column, DFSchema, DFSchemaRef, JoinType, Result, ScalarValue};
use datafusion_expr::expr::{
    binary, AggregateFunction, Alias, Between, InList, ScalarFunction, WindowFunction, WindowFunctionParams,
};
use datafusion_expr::logical_plan::*;
use datafusion_expr::Expr;
use std::sync::Arc;

pub fn plan(tree: &Tree) -> LogicalPlan {
    let Label { p, lo, hi, .. } = tree.label;
    match tree.label.kind {
        SCAN => scan(tree),
        FILTER => LogicalPlan::Filter(Filter::new(expr(&tree.children[0]), input(tree))),
        PROJECTION => projection(tree),
        JOIN => join(tree),
        ALIAS => alias(tree),
        UNION => union(tree),
        DISTINCT => LogicalPlan::Distinct(Distinct::All(input(tree))),
        SORT => {
            let fetch = (p == 1).then_some(lo as usize);
            LogicalPlan::Sort(Sort { expr: parts(tree, SORT_KEY, sort_key), input: input(tree), fetch })
        }
        REPARTITION => LogicalPlan::Repartition(Repartition { input: input(tree) }),
        LIMIT => LogicalPlan::Limit(Limit { fetch: lo as usize, skip: hi as usize, input: input(tree) }),
        AGGREGATE => aggregate(tree),
        WINDOW => window(tree),
        kind => panic!("kind {kind} is no plan"),
    }
}

/// The last child, which in plans of one input is that.
fn input(tree: &Tree) -> Arc<LogicalPlan> {
    Arc::new(plan(tree.children.last().expect("the plan has an input")))
}

fn parts<T>(tree: &Tree, kind: u32, part: impl FnMut(&Tree) -> T) -> Vec<T> {
    tree.children.iter().filter(|child| child.label.kind == kind).map(part).collect()
}

/// The expressions among the children.
fn exprs(tree: &Tree) -> Vec<Expr> {
    tree.children.iter().filter(|child| is_expr(child.label.kind)).map(expr).collect()
}

/// The fields that parts make, by their p and q. No arm of the source that runs asks for a field's type.
fn schema_of(parts: &[Tree]) -> DFSchemaRef {
    let field = |part: &Tree| {
        let Label { p, q, .. } = part.label;
        (relation(p), Arc::new(Field::new(name(q), DataType::Null, true)))
    };
    Arc::new(DFSchema::new(parts.iter().map(field).collect()))
}

/// The fields of one schema, then those of another.
fn beside(left: &DFSchema, right: &DFSchema) -> DFSchemaRef {
    let fields = left.iter().chain(right.iter());
    Arc::new(DFSchema::new(fields.map(|(qualifier, field)| (qualifier.cloned(), field.clone())).collect()))
}

/// The fields of a scan, of which the marked ones are filtered exactly.
pub struct Marked {
    pub fields: Vec<Tree>,
}

impl Marked {
    fn takes(&self, predicate: &Expr) -> TableProviderFilterPushDown {
        let is_marked = |column: &&Column| {
            self.fields
                .iter()
                .map(|field| field.label)
                .any(|Label { p, q, lo, .. }| relation(p) == column.relation && name(q) == column.name && lo == 1)
        };
        let columns = predicate.column_refs();
        match !columns.is_empty() && columns.iter().all(is_marked) {
            true => TableProviderFilterPushDown::Exact,
            false => TableProviderFilterPushDown::Unsupported,
        }
    }
}

impl TableSource for Marked {
    fn supports_filters_pushdown(&self, filters: &[&Expr]) -> Result<Vec<TableProviderFilterPushDown>> {
        Ok(filters.iter().map(|predicate| self.takes(predicate)).collect())
    }
}

fn scan(tree: &Tree) -> LogicalPlan {
    let fields = parts(tree, FIELD, Tree::clone);
    LogicalPlan::TableScan(TableScan {
        table_name: name(tree.label.p),
        projected_schema: schema_of(&fields),
        source: Arc::new(Marked { fields }),
        filters: exprs(tree),
    })
}

fn projection(tree: &Tree) -> LogicalPlan {
    let (input_plan, entries) = tree.children.split_last().expect("a Projection has an input");
    LogicalPlan::Projection(Projection {
        expr: entries.iter().map(entry).collect(),
        input: Arc::new(plan(input_plan)),
        schema: schema_of(entries),
    })
}

fn join(tree: &Tree) -> LogicalPlan {
    let (left, right) = (plan(&tree.children[0]), plan(&tree.children[1]));
    let join_type = JOINS[tree.label.p as usize - 1];
    let schema = match join_type {
        JoinType::LeftSemi | JoinType::LeftAnti => left.schema().clone(),
        JoinType::RightSemi | JoinType::RightAnti => right.schema().clone(),
        _ => beside(left.schema(), right.schema()),
    };
    LogicalPlan::Join(Join {
        left: Arc::new(left),
        right: Arc::new(right),
        on: parts(tree, KEY_PAIR, |pair| (expr(&pair.children[0]), expr(&pair.children[1]))),
        filter: exprs(tree).pop(),
        join_type,
        schema,
        null_aware: false,
    })
}

fn alias(tree: &Tree) -> LogicalPlan {
    let input = input(tree);
    let qualified = |(_, field): (_, &Arc<Field>)| (relation(tree.label.p), field.clone());
    let schema = Arc::new(DFSchema::new(input.schema().iter().map(qualified).collect()));
    LogicalPlan::SubqueryAlias(SubqueryAlias { input, alias: name(tree.label.p), schema })
}

fn union(tree: &Tree) -> LogicalPlan {
    let inputs: Vec<Arc<LogicalPlan>> = tree.children.iter().map(|child| Arc::new(plan(child))).collect();
    let schema = inputs[0].schema().clone();
    LogicalPlan::Union(Union { inputs, schema })
}

fn aggregate(tree: &Tree) -> LogicalPlan {
    let (input_plan, entries) = tree.children.split_last().expect("an Aggregate has an input");
    let function = |part: &Tree| {
        let args = vec![expr(&part.children[0])];
        named(part, Expr::AggregateFunction(AggregateFunction { number: part.label.r, args }))
    };
    LogicalPlan::Aggregate(Aggregate {
        input: Arc::new(plan(input_plan)),
        group_expr: parts(tree, ENTRY, entry),
        aggr_expr: parts(tree, AGGREGATE_ENTRY, function),
        schema: schema_of(entries),
    })
}

fn window(tree: &Tree) -> LogicalPlan {
    let (input_plan, entries) = tree.children.split_last().expect("a Window has an input");
    let input = Arc::new(plan(input_plan));
    let function = |part: &Tree| {
        let partition_by = part.children[1..].iter().map(expr).collect();
        let params = WindowFunctionParams { args: vec![expr(&part.children[0])], partition_by };
        named(part, Expr::WindowFunction(WindowFunction { number: part.label.r, params }))
    };
    let schema = beside(input.schema(), &schema_of(entries));
    LogicalPlan::Window(Window { input, window_expr: entries.iter().map(function).collect(), schema })
}

fn sort_key(part: &Tree) -> SortExpr {
    SortExpr { expr: expr(&part.children[0]), asc: part.label.p == 0 }
}

fn entry(part: &Tree) -> Expr {
    named(part, expr(&part.children[0]))
}

/// An expression under the name that its part gives it.
fn named(part: &Tree, expr: Expr) -> Expr {
    Expr::Alias(Alias { expr: Box::new(expr), relation: relation(part.label.p), name: name(part.label.q) })
}

pub fn expr(tree: &Tree) -> Expr {
    let Label { p, q, r, lo, hi, .. } = tree.label;
    let child = |at: usize| Box::new(expr(&tree.children[at]));
    match tree.label.kind {
        COLUMN => Expr::Column(Column { relation: relation(p), name: name(q) }),
        INTEGER => literal(ScalarValue::Int64(Some((u64::from(hi) << 32 | u64::from(lo)) as i64))),
        BOOLEAN => literal(ScalarValue::Boolean(Some(p == 1))),
        NULL => literal(if p == OF_INTEGER { ScalarValue::Int64(None) } else { ScalarValue::Boolean(None) }),
        BINARY => binary(*child(0), OPERATORS[p as usize - 1], *child(1)),
        NOT => Expr::Not(child(0)),
        TEST => TESTS[p as usize - 1](child(0)),
        BETWEEN => Expr::Between(Between { expr: child(0), negated: p == 1, low: child(1), high: child(2) }),
        IN_LIST => {
            let list = tree.children[1..].iter().map(expr).collect();
            Expr::InList(InList { expr: child(0), list, negated: p == 1 })
        }
        FUNCTION => Expr::ScalarFunction(ScalarFunction {
            number: p,
            is_volatile: q & 1 == 1,
            is_leafward: q & 2 == 2,
            is_boolean: r == OF_BOOLEAN,
            args: tree.children.iter().map(expr).collect(),
        }),
        kind => panic!("kind {kind} is no expression"),
    }
}

fn literal(value: ScalarValue) -> Expr {
    Expr::Literal(value, None)
}
