//! The words of records in the source's terms: names as text, operators, joins and tests as variants.

use datafusion_common::{JoinType, TableReference};
use datafusion_expr::{Expr, Operator};

/// By p, from 1.
pub const OPERATORS: [Operator; 8] = [
    Operator::And,
    Operator::Or,
    Operator::Eq,
    Operator::NotEq,
    Operator::Lt,
    Operator::LtEq,
    Operator::Gt,
    Operator::GtEq,
];

pub const JOINS: [JoinType; 8] = [
    JoinType::Inner,
    JoinType::Left,
    JoinType::Right,
    JoinType::Full,
    JoinType::LeftSemi,
    JoinType::RightSemi,
    JoinType::LeftAnti,
    JoinType::RightAnti,
];

pub const TESTS: [fn(Box<Expr>) -> Expr; 8] = [
    Expr::IsNull,
    Expr::IsNotNull,
    Expr::IsTrue,
    Expr::IsFalse,
    Expr::IsUnknown,
    Expr::IsNotTrue,
    Expr::IsNotFalse,
    Expr::IsNotUnknown,
];

/// The p of an element of such a table.
pub fn place<T: PartialEq>(table: &[T], element: &T) -> u32 {
    1 + table.iter().position(|other| other == element).expect("the table holds all that an image can") as u32
}

/// Ten digits, so that the order of the texts is that of the numbers.
pub fn name(number: u32) -> String {
    format!("{number:010}")
}

pub fn number(name: &str) -> u32 {
    name.parse().expect("a name is a number's ten digits")
}

/// The qualifier 0 is none.
pub fn relation(qualifier: u32) -> Option<TableReference> {
    (qualifier != 0).then(|| TableReference(name(qualifier)))
}

pub fn qualifier(relation: &Option<TableReference>) -> u32 {
    relation.as_ref().map_or(0, |relation| number(&relation.0))
}
