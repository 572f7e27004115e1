//! Expressions. A variant that the source names and no image can hold carries a `Never`.

use crate::Operator;
use datafusion_common::tree_node::{TreeNode, TreeNodeRecursion};
use datafusion_common::{Column, Never, ScalarValue, TableReference, qualified_name};
use std::collections::HashSet;
use std::fmt;

#[derive(Clone, Debug, PartialEq, Eq, Hash)]
pub enum Expr {
    Alias(Alias),
    Column(Column),
    ScalarVariable(Never, Never),
    Literal(ScalarValue, Option<Never>),
    BinaryExpr(BinaryExpr),
    Like(Never),
    SimilarTo(Never),
    Not(Box<Expr>),
    IsNotNull(Box<Expr>),
    IsNull(Box<Expr>),
    IsTrue(Box<Expr>),
    IsFalse(Box<Expr>),
    IsUnknown(Box<Expr>),
    IsNotTrue(Box<Expr>),
    IsNotFalse(Box<Expr>),
    IsNotUnknown(Box<Expr>),
    Negative(Never),
    Between(Between),
    Case(Never),
    Cast(Never),
    TryCast(Never),
    ScalarFunction(ScalarFunction),
    AggregateFunction(AggregateFunction),
    WindowFunction(WindowFunction),
    InList(InList),
    Exists(Exists),
    InSubquery(InSubquery),
    SetComparison(SetComparison),
    ScalarSubquery(Subquery),
    #[deprecated]
    Wildcard {
        never: Never,
    },
    GroupingSet(Never),
    Placeholder(Never),
    OuterReferenceColumn(Never, Column),
    Unnest(Never),
    HigherOrderFunction(Never),
    Lambda(Never),
    LambdaVariable(Never),
}

#[derive(Clone, Debug, PartialEq, Eq, Hash)]
pub struct Alias {
    pub expr: Box<Expr>,
    pub relation: Option<TableReference>,
    pub name: String,
}

#[derive(Clone, Debug, PartialEq, Eq, Hash)]
pub struct BinaryExpr {
    pub left: Box<Expr>,
    pub op: Operator,
    pub right: Box<Expr>,
}

#[derive(Clone, Debug, PartialEq, Eq, Hash)]
pub struct Between {
    pub expr: Box<Expr>,
    pub negated: bool,
    pub low: Box<Expr>,
    pub high: Box<Expr>,
}

#[derive(Clone, Debug, PartialEq, Eq, Hash)]
pub struct InList {
    pub expr: Box<Expr>,
    pub list: Vec<Expr>,
    pub negated: bool,
}

/// A function by its number. `is_boolean` is its type, which is that of the image: boolean or integer.
#[derive(Clone, Debug, PartialEq, Eq, Hash)]
pub struct ScalarFunction {
    pub number: u32,
    pub is_volatile: bool,
    pub is_leafward: bool,
    pub is_boolean: bool,
    pub args: Vec<Expr>,
}

/// The source looks at no aggregate; `number` says which it is.
#[derive(Clone, Debug, PartialEq, Eq, Hash)]
pub struct AggregateFunction {
    pub number: u32,
    pub args: Vec<Expr>,
}

/// Of a window function the source looks at the partition columns alone.
#[derive(Clone, Debug, PartialEq, Eq, Hash)]
pub struct WindowFunction {
    pub number: u32,
    pub params: WindowFunctionParams,
}

#[derive(Clone, Debug, PartialEq, Eq, Hash)]
pub struct WindowFunctionParams {
    pub args: Vec<Expr>,
    pub partition_by: Vec<Expr>,
}

#[derive(Clone, Debug, PartialEq, Eq, Hash)]
pub struct Subquery {
    pub outer_ref_columns: Vec<Expr>,
    pub never: Never,
}

#[derive(Clone, Debug, PartialEq, Eq, Hash)]
pub struct Exists {
    pub subquery: Subquery,
    pub negated: bool,
}

#[derive(Clone, Debug, PartialEq, Eq, Hash)]
pub struct InSubquery {
    pub subquery: Subquery,
    pub negated: bool,
}

#[derive(Clone, Debug, PartialEq, Eq, Hash)]
pub struct SetComparison {
    pub subquery: Subquery,
    pub never: Never,
}

/// Where an expression is best computed. The source asks for the one case alone.
#[derive(Clone, Copy, Debug, PartialEq, Eq)]
pub enum ExpressionPlacement {
    KeepInPlace,
    MoveTowardsLeafNodes,
}

pub fn binary(left: Expr, op: Operator, right: Expr) -> Expr {
    Expr::BinaryExpr(BinaryExpr { left: Box::new(left), op, right: Box::new(right) })
}

impl Expr {
    pub fn as_literal(&self) -> Option<&ScalarValue> {
        match self {
            Expr::Literal(value, _) => Some(value),
            _ => None,
        }
    }

    pub fn try_as_col(&self) -> Option<&Column> {
        match self {
            Expr::Column(column) => Some(column),
            _ => None,
        }
    }

    pub fn column_refs(&self) -> HashSet<&Column> {
        let mut columns = HashSet::new();
        let walked = self.apply(|expr| {
            columns.extend(expr.try_as_col());
            Ok(TreeNodeRecursion::Continue)
        });
        walked.expect("the walk does not fail");
        columns
    }

    fn has(&self, wanted: fn(&Expr) -> bool) -> bool {
        self.exists(|expr| Ok(wanted(expr))).expect("the walk does not fail")
    }

    /// A function anywhere in the expression is volatile.
    pub fn is_volatile(&self) -> bool {
        self.has(|expr| matches!(expr, Expr::ScalarFunction(function) if function.is_volatile))
    }

    pub fn contains_scalar_subquery(&self) -> bool {
        self.has(|expr| matches!(expr, Expr::ScalarSubquery(_)))
    }

    /// The topmost expression alone counts.
    pub fn placement(&self) -> ExpressionPlacement {
        match self {
            Expr::ScalarFunction(function) if function.is_leafward => ExpressionPlacement::MoveTowardsLeafNodes,
            _ => ExpressionPlacement::KeepInPlace,
        }
    }

    /// The qualifier and name that the expression has in a schema.
    pub fn qualified_name(&self) -> (Option<TableReference>, String) {
        match self {
            Expr::Alias(alias) => (alias.relation.clone(), alias.name.clone()),
            Expr::Column(column) => (column.relation.clone(), column.name.clone()),
            _ => (None, self.to_string()),
        }
    }

    pub fn schema_name(&self) -> impl fmt::Display {
        let (relation, name) = self.qualified_name();
        qualified_name(relation.as_ref(), &name)
    }
}

impl AsRef<Expr> for Expr {
    fn as_ref(&self) -> &Expr {
        self
    }
}

impl fmt::Display for Expr {
    fn fmt(&self, f: &mut fmt::Formatter<'_>) -> fmt::Result {
        write!(f, "{self:?}")
    }
}
