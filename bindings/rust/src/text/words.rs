//! The words of the text for the numbers of records.

/// The plans by kind, from 32.
pub const PLANS: [&str; 12] = [
    "TableScan",
    "Filter",
    "Projection",
    "Join",
    "SubqueryAlias",
    "Union",
    "Distinct",
    "Sort",
    "Repartition",
    "Limit",
    "Aggregate",
    "Window",
];

/// The kinds of joins by p, from 1.
pub const JOINS: [&str; 8] = ["Inner", "Left", "Right", "Full", "LeftSemi", "RightSemi", "LeftAnti", "RightAnti"];
/// The operators of a BinaryExpr by p, from 1.
pub const OPERATORS: [&str; 8] = ["AND", "OR", "=", "!=", "<", "<=", ">", ">="];
/// The tests by p, from 1.
pub const TESTS: [&str; 8] =
    ["IS NULL", "IS NOT NULL", "IS TRUE", "IS FALSE", "IS UNKNOWN", "IS NOT TRUE", "IS NOT FALSE", "IS NOT UNKNOWN"];
/// The types, from 1.
pub const TYPES: [&str; 2] = ["int", "bool"];
/// What entries of an Aggregate or a Window count, by r, from 1.
pub const COUNTS: [&str; 3] = ["Count", "Min", "Max"];

/// The other words of plans.
const KEYWORDS: [&str; 22] = [
    "AND", "OR", "NOT", "IS", "NULL", "TRUE", "FALSE", "UNKNOWN", "BETWEEN", "IN", "DESC", "filters", "on", "filter",
    "fetch", "skip", "group", "entries", "over", "marked", "volatile", "leafward",
];

/// Whether it is a word of plans, in small letters or capitals, which no name can be.
pub fn is_reserved(word: &str) -> bool {
    let all = [&PLANS[..], &JOINS, &TYPES, &COUNTS, &KEYWORDS];
    all.into_iter().flatten().any(|reserved| reserved.eq_ignore_ascii_case(word))
}

/// The word of a number that counts from 1.
pub fn word(words: &[&'static str], number: u32) -> &'static str {
    words[number as usize - 1]
}

/// The number of a word, counted from 1.
pub fn number(words: &[&str], word: &str) -> Option<u32> {
    words.iter().position(|other| *other == word).map(|at| at as u32 + 1)
}
