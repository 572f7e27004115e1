//! The rows of the eight joins.

use super::values::{Row, Value::Null};
use crate::kinds::*;

/// The rows of both inputs, how many fields each has, and which rows match.
pub struct Sides<'a> {
    pub left: Vec<Row>,
    pub right: Vec<Row>,
    pub left_width: usize,
    pub right_width: usize,
    pub matches: &'a dyn Fn(&Row, &Row) -> bool,
}

impl Sides<'_> {
    pub fn joined(&self, which: u32) -> Vec<Row> {
        match which {
            INNER => self.inner(),
            LEFT => self.left_outer(),
            RIGHT => self.right_outer(),
            FULL => {
                let unmatched = self.right_matched(false);
                let padded = unmatched.iter().map(|right| self.without_left(right));
                self.left_outer().into_iter().chain(padded).collect()
            }
            LEFT_SEMI => self.left_matched(true),
            RIGHT_SEMI => self.right_matched(true),
            LEFT_ANTI => self.left_matched(false),
            RIGHT_ANTI => self.right_matched(false),
            which => panic!("no join is of kind {which}"),
        }
    }

    /// The matches of a row of the left, in the right's order.
    fn matches_of_left(&self, left: &Row) -> Vec<Row> {
        self.right.iter().filter(|right| (self.matches)(left, right)).map(|right| beside(left, right)).collect()
    }

    fn matches_of_right(&self, right: &Row) -> Vec<Row> {
        self.left.iter().filter(|left| (self.matches)(left, right)).map(|left| beside(left, right)).collect()
    }

    /// Missing sides are NULL.
    fn without_right(&self, left: &Row) -> Row {
        beside(left, &vec![Null; self.right_width])
    }

    fn without_left(&self, right: &Row) -> Row {
        beside(&vec![Null; self.left_width], right)
    }

    fn inner(&self) -> Vec<Row> {
        self.left.iter().flat_map(|left| self.matches_of_left(left)).collect()
    }

    fn left_outer(&self) -> Vec<Row> {
        let or_alone = |left| or_else(self.matches_of_left(left), || self.without_right(left));
        self.left.iter().flat_map(or_alone).collect()
    }

    fn right_outer(&self) -> Vec<Row> {
        let or_alone = |right| or_else(self.matches_of_right(right), || self.without_left(right));
        self.right.iter().flat_map(or_alone).collect()
    }

    /// The rows of the left that match some row of the right, or those that match none.
    fn left_matched(&self, matched: bool) -> Vec<Row> {
        self.left.iter().filter(|left| self.matches_of_left(left).is_empty() != matched).cloned().collect()
    }

    fn right_matched(&self, matched: bool) -> Vec<Row> {
        self.right.iter().filter(|right| self.matches_of_right(right).is_empty() != matched).cloned().collect()
    }
}

/// The rows, or one other row where there are none.
fn or_else(rows: Vec<Row>, other: impl Fn() -> Row) -> Vec<Row> {
    if rows.is_empty() {
        vec![other()]
    } else {
        rows
    }
}

fn beside(left: &Row, right: &Row) -> Row {
    [left.as_slice(), right].concat()
}
