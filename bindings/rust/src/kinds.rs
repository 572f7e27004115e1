//! The kinds of records and the numbers of their words, and a constructor of trees for each kind.

use crate::image::{Label, Tree};

/// A reference to a field: p qualifier (0 none), q name.
pub const COLUMN: u32 = 1;
/// An integer literal: lo and hi, the halves of a signed 64-bit number.
pub const INTEGER: u32 = 2;
/// TRUE or FALSE: p 1 or 0.
pub const BOOLEAN: u32 = 3;
/// A NULL literal: p its type.
pub const NULL: u32 = 4;
/// A comparison, AND or OR of two operands: p the operator.
pub const BINARY: u32 = 5;
/// The negation of its operand.
pub const NOT: u32 = 6;
/// A test of its operand, p: 1 IS NULL, 2 IS NOT NULL, 3 to 5 IS TRUE, FALSE, UNKNOWN, 6 to 8 these negated.
pub const TEST: u32 = 7;
/// Operand, low, high: p 1 if negated.
pub const BETWEEN: u32 = 8;
/// Operand, then one or more items: p 1 if negated.
pub const IN_LIST: u32 = 9;
/// A function of any arguments: p number, q 1 volatile + 2 leafward, r type.
pub const FUNCTION: u32 = 10;

/// TableScan, p table: fields, then filters.
pub const SCAN: u32 = 32;
/// Filter: predicate, input.
pub const FILTER: u32 = 33;
/// Projection: one or more entries, input.
pub const PROJECTION: u32 = 34;
/// Join, p its kind: left, right, key pairs, at most one filter.
pub const JOIN: u32 = 35;
/// SubqueryAlias, p qualifier: input.
pub const ALIAS: u32 = 36;
/// Union: two or more inputs.
pub const UNION: u32 = 37;
/// Distinct: input.
pub const DISTINCT: u32 = 38;
/// Sort, p 1 if lo is a fetch: sort keys, input.
pub const SORT: u32 = 39;
/// Repartition: input.
pub const REPARTITION: u32 = 40;
/// Limit, lo fetch, hi skip: input.
pub const LIMIT: u32 = 41;
/// Aggregate: group entries, aggregate entries, at least one of these, input.
pub const AGGREGATE: u32 = 42;
/// Window: one or more window entries, input.
pub const WINDOW: u32 = 43;

/// A field of a scan: p, q name, r type, lo 1 if marked.
pub const FIELD: u32 = 48;
/// An entry of a Projection or a group of an Aggregate, p, q output name: expression.
pub const ENTRY: u32 = 49;
/// A key pair of a join: an expression over the left input, one over the right.
pub const KEY_PAIR: u32 = 50;
/// A key of a Sort, p 1 if descending: expression.
pub const SORT_KEY: u32 = 51;
/// An entry of an Aggregate, p, q output name, r what it counts: expression.
pub const AGGREGATE_ENTRY: u32 = 52;
/// An entry of a Window, p, q output name, r what it counts: expression, partition columns.
pub const WINDOW_ENTRY: u32 = 53;

/// The type of integers.
pub const OF_INTEGER: u32 = 1;
/// The type of booleans.
pub const OF_BOOLEAN: u32 = 2;

/// The operator AND.
pub const AND: u32 = 1;
/// The operator OR.
pub const OR: u32 = 2;
/// The operator `=`.
pub const EQ: u32 = 3;
/// The operator `!=`.
pub const NOT_EQ: u32 = 4;
/// The operator `<`.
pub const LT: u32 = 5;
/// The operator `<=`.
pub const LT_EQ: u32 = 6;
/// The operator `>`.
pub const GT: u32 = 7;
/// The operator `>=`.
pub const GT_EQ: u32 = 8;

/// An inner join.
pub const INNER: u32 = 1;
/// A left outer join.
pub const LEFT: u32 = 2;
/// A right outer join.
pub const RIGHT: u32 = 3;
/// A full outer join.
pub const FULL: u32 = 4;
/// Left rows that have a match.
pub const LEFT_SEMI: u32 = 5;
/// Right rows that have a match.
pub const RIGHT_SEMI: u32 = 6;
/// Left rows that have none.
pub const LEFT_ANTI: u32 = 7;
/// Right rows that have none.
pub const RIGHT_ANTI: u32 = 8;

/// How many values are not NULL.
pub const COUNT: u32 = 1;
/// The least value.
pub const MIN: u32 = 2;
/// The greatest value.
pub const MAX: u32 = 3;

/// Whether the kind is one of expressions.
pub fn is_expr(kind: u32) -> bool {
    (COLUMN..=FUNCTION).contains(&kind)
}

/// Whether the kind is one of plans.
pub fn is_plan(kind: u32) -> bool {
    (SCAN..=WINDOW).contains(&kind)
}

fn tree(kind: u32, p: u32, q: u32, r: u32, children: Vec<Tree>) -> Tree {
    Tree { label: Label { kind, p, q, r, lo: 0, hi: 0 }, children }
}

/// A record that uses p alone, with its children.
pub fn of_children(kind: u32, p: u32, children: Vec<Tree>) -> Tree {
    tree(kind, p, 0, 0, children)
}

/// A reference; the qualifier 0 is none.
pub fn column(qualifier: u32, name: u32) -> Tree {
    tree(COLUMN, qualifier, name, 0, vec![])
}

/// An integer literal.
pub fn integer(value: i64) -> Tree {
    let mut literal = tree(INTEGER, 0, 0, 0, vec![]);
    literal.label.lo = value as u32;
    literal.label.hi = (value >> 32) as u32;
    literal
}

/// TRUE or FALSE.
pub fn boolean(value: bool) -> Tree {
    tree(BOOLEAN, value as u32, 0, 0, vec![])
}

/// A NULL of the type.
pub fn null(of: u32) -> Tree {
    tree(NULL, of, 0, 0, vec![])
}

/// The operator between two operands.
pub fn binary(operator: u32, left: Tree, right: Tree) -> Tree {
    tree(BINARY, operator, 0, 0, vec![left, right])
}

/// Both operands.
pub fn and(left: Tree, right: Tree) -> Tree {
    binary(AND, left, right)
}

/// The negation.
pub fn not(operand: Tree) -> Tree {
    tree(NOT, 0, 0, 0, vec![operand])
}

/// The test with the number.
pub fn test(which: u32, operand: Tree) -> Tree {
    tree(TEST, which, 0, 0, vec![operand])
}

/// BETWEEN, or NOT BETWEEN.
pub fn between(negated: bool, operand: Tree, low: Tree, high: Tree) -> Tree {
    tree(BETWEEN, negated as u32, 0, 0, vec![operand, low, high])
}

/// The operand first, then the items.
pub fn in_list(negated: bool, operands: Vec<Tree>) -> Tree {
    tree(IN_LIST, negated as u32, 0, 0, operands)
}

/// A function with its marks, 1 volatile + 2 leafward, and the type of its value.
pub fn function(number: u32, marks: u32, of: u32, arguments: Vec<Tree>) -> Tree {
    tree(FUNCTION, number, marks, of, arguments)
}

/// A field of a scan.
pub fn field(qualifier: u32, name: u32, of: u32, marked: bool) -> Tree {
    let mut part = tree(FIELD, qualifier, name, of, vec![]);
    part.label.lo = marked as u32;
    part
}

/// An expression under an output name.
pub fn entry(qualifier: u32, name: u32, expression: Tree) -> Tree {
    tree(ENTRY, qualifier, name, 0, vec![expression])
}

/// A key pair of a join.
pub fn key_pair(left: Tree, right: Tree) -> Tree {
    tree(KEY_PAIR, 0, 0, 0, vec![left, right])
}

/// A key of a Sort.
pub fn sort_key(descending: bool, expression: Tree) -> Tree {
    tree(SORT_KEY, descending as u32, 0, 0, vec![expression])
}

/// An entry of an Aggregate.
pub fn aggregate_entry(qualifier: u32, name: u32, what: u32, expression: Tree) -> Tree {
    tree(AGGREGATE_ENTRY, qualifier, name, what, vec![expression])
}

/// The expression first, then the partition columns.
pub fn window_entry(qualifier: u32, name: u32, what: u32, expressions: Vec<Tree>) -> Tree {
    tree(WINDOW_ENTRY, qualifier, name, what, expressions)
}

/// The fields first, then the filters.
pub fn scan(table: u32, children: Vec<Tree>) -> Tree {
    tree(SCAN, table, 0, 0, children)
}

/// A Filter.
pub fn filter(predicate: Tree, input: Tree) -> Tree {
    tree(FILTER, 0, 0, 0, vec![predicate, input])
}

/// Left, right, key pairs, and the filter if there is one.
pub fn join(which: u32, children: Vec<Tree>) -> Tree {
    tree(JOIN, which, 0, 0, children)
}

/// A SubqueryAlias.
pub fn alias(qualifier: u32, input: Tree) -> Tree {
    tree(ALIAS, qualifier, 0, 0, vec![input])
}

/// A Union.
pub fn union(inputs: Vec<Tree>) -> Tree {
    tree(UNION, 0, 0, 0, inputs)
}

/// A Distinct.
pub fn distinct(input: Tree) -> Tree {
    tree(DISTINCT, 0, 0, 0, vec![input])
}

/// A Repartition.
pub fn repartition(input: Tree) -> Tree {
    tree(REPARTITION, 0, 0, 0, vec![input])
}

/// A Limit.
pub fn limit(fetch: u32, skip: u32, input: Tree) -> Tree {
    let mut plan = tree(LIMIT, 0, 0, 0, vec![input]);
    plan.label.lo = fetch;
    plan.label.hi = skip;
    plan
}

/// A Sort, with a fetch or without.
pub fn sort(fetch: Option<u32>, keys: Vec<Tree>, input: Tree) -> Tree {
    let mut plan = over(SORT, keys, input);
    plan.label.p = fetch.is_some() as u32;
    plan.label.lo = fetch.unwrap_or(0);
    plan
}

/// A Projection, Aggregate or Window: its entries, then its input.
pub fn over(kind: u32, mut parts: Vec<Tree>, input: Tree) -> Tree {
    parts.push(input);
    tree(kind, 0, 0, 0, parts)
}
