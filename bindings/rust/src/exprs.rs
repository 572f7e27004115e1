//! Expressions.

use crate::numbered::{AggregateKind, Operator, Test, Type};
use crate::plans::{Aggregate, Entry, SortKey};

/// A qualifier and a name; the qualifier 0 is none, and no name is 0.
#[derive(Clone, Copy, Debug, PartialEq, Eq, PartialOrd, Ord, Hash)]
pub struct Name {
    /// 0 is none.
    pub qualifier: u32,
    /// Not 0.
    pub name: u32,
}

/// The name under the qualifier; 0 is none.
pub fn name(qualifier: u32, name: u32) -> Name {
    Name { qualifier, name }
}

/// An expression over the fields of a plan. Build them by [`col`], [`lit`], [`null`], [`function`] and the methods
/// here.
///
/// ```
/// use push_down_filter::{bare, col, lit, not};
///
/// // t1.c1 > 5 AND (t2.c2 IS NULL OR NOT c3)
/// let expr = col(1, 1).gt(5).and(col(2, 2).is_null().or(not(bare(3))));
/// assert_eq!(expr, col(1, 1).gt(lit(5)).and(col(2, 2).is_null().or(!bare(3))));
/// ```
#[derive(Clone, Debug, PartialEq, Eq, Hash)]
#[non_exhaustive]
pub enum Expr {
    /// A reference to the field of that name.
    Column(Name),
    /// An integer literal.
    Integer(i64),
    /// TRUE or FALSE.
    Boolean(bool),
    /// A NULL of the type.
    Null(Type),
    /// A comparison, AND or OR.
    Binary {
        /// What stands between them.
        operator: Operator,
        /// The left operand.
        left: Box<Expr>,
        /// The right operand.
        right: Box<Expr>,
    },
    /// The negation of a boolean.
    Not(Box<Expr>),
    /// A test for NULL or for a truth.
    Test {
        /// Which.
        test: Test,
        /// What is tested.
        operand: Box<Expr>,
    },
    /// `low <= operand AND operand <= high`, or its negation.
    Between {
        /// Whether it is NOT BETWEEN.
        negated: bool,
        /// What is compared.
        operand: Box<Expr>,
        /// The lower bound.
        low: Box<Expr>,
        /// The upper bound.
        high: Box<Expr>,
    },
    /// Whether one of the items equals the operand, or its negation. UNKNOWN if the operand is NULL, or if none equals it and one is NULL.
    InList {
        /// Whether it is NOT IN.
        negated: bool,
        /// What is looked for.
        operand: Box<Expr>,
        /// One or more.
        items: Vec<Expr>,
    },
    /// A function, whose meaning the library does not know.
    Function {
        /// Which.
        number: u32,
        /// Whether two calls with the same arguments may differ.
        volatile: bool,
        /// Whether a Projection entry that is this function keeps Filters above it.
        leafward: bool,
        /// The type of its value.
        of: Type,
        /// Any number of arguments.
        arguments: Vec<Expr>,
    },
}

/// The field with the qualifier and the name.
pub fn col(qualifier: u32, name: u32) -> Expr {
    Expr::Column(Name { qualifier, name })
}

/// The field with the name and without qualifier.
pub fn bare(name: u32) -> Expr {
    col(0, name)
}

/// A literal: an integer or a boolean.
pub fn lit(value: impl Into<Expr>) -> Expr {
    value.into()
}

/// The NULL of a type.
pub fn null(of: Type) -> Expr {
    Expr::Null(of)
}

/// The negation.
pub fn not(operand: impl Into<Expr>) -> Expr {
    Expr::Not(Box::new(operand.into()))
}

/// A function that is neither volatile nor leafward; see [`Expr::volatile`] and [`Expr::leafward`].
pub fn function(number: u32, of: Type, arguments: impl IntoIterator<Item = Expr>) -> Expr {
    let arguments = arguments.into_iter().collect();
    Expr::Function { number, volatile: false, leafward: false, of, arguments }
}

/// All of them, joined by AND from the left; TRUE if there are none.
pub fn all(conjuncts: impl IntoIterator<Item = Expr>) -> Expr {
    conjuncts.into_iter().reduce(Expr::and).unwrap_or(Expr::Boolean(true))
}

/// How many values of the expression are not NULL.
pub fn count(of: impl Into<Expr>) -> Aggregate {
    Aggregate { kind: AggregateKind::Count, of: of.into() }
}

/// The least value of an integer expression.
pub fn min(of: impl Into<Expr>) -> Aggregate {
    Aggregate { kind: AggregateKind::Min, of: of.into() }
}

/// The greatest value of an integer expression.
pub fn max(of: impl Into<Expr>) -> Aggregate {
    Aggregate { kind: AggregateKind::Max, of: of.into() }
}

impl From<i64> for Expr {
    fn from(value: i64) -> Expr {
        Expr::Integer(value)
    }
}

impl From<i32> for Expr {
    fn from(value: i32) -> Expr {
        Expr::Integer(value.into())
    }
}

impl From<bool> for Expr {
    fn from(value: bool) -> Expr {
        Expr::Boolean(value)
    }
}

impl From<Name> for Expr {
    fn from(name: Name) -> Expr {
        Expr::Column(name)
    }
}

impl std::ops::Not for Expr {
    type Output = Expr;

    fn not(self) -> Expr {
        not(self)
    }
}

macro_rules! binary {
    ($($(#[$doc:meta])* $method:ident $operator:ident;)*) => { $(
        $(#[$doc])*
        pub fn $method(self, other: impl Into<Expr>) -> Expr {
            self.binary(Operator::$operator, other)
        }
    )* };
}

macro_rules! tests {
    ($($(#[$doc:meta])* $method:ident $test:ident;)*) => { $(
        $(#[$doc])*
        pub fn $method(self) -> Expr {
            self.test(Test::$test)
        }
    )* };
}

impl Expr {
    binary! {
        /// `self AND other`
        and And;
        /// `self OR other`
        or Or;
        /// `self = other`
        eq Eq;
        /// `self != other`
        not_eq NotEq;
        /// `self < other`
        lt Lt;
        /// `self <= other`
        lt_eq LtEq;
        /// `self > other`
        gt Gt;
        /// `self >= other`
        gt_eq GtEq;
    }

    tests! {
        /// `self IS NULL`
        is_null IsNull;
        /// `self IS NOT NULL`
        is_not_null IsNotNull;
        /// `self IS TRUE`
        is_true IsTrue;
        /// `self IS FALSE`
        is_false IsFalse;
        /// `self IS UNKNOWN`
        is_unknown IsUnknown;
        /// `self IS NOT TRUE`
        is_not_true IsNotTrue;
        /// `self IS NOT FALSE`
        is_not_false IsNotFalse;
        /// `self IS NOT UNKNOWN`
        is_not_unknown IsNotUnknown;
    }

    /// The operator between this and the other.
    pub fn binary(self, operator: Operator, other: impl Into<Expr>) -> Expr {
        Expr::Binary { operator, left: Box::new(self), right: Box::new(other.into()) }
    }

    /// The test of this.
    pub fn test(self, test: Test) -> Expr {
        Expr::Test { test, operand: Box::new(self) }
    }

    fn ranged(self, negated: bool, low: Expr, high: Expr) -> Expr {
        Expr::Between { negated, operand: Box::new(self), low: Box::new(low), high: Box::new(high) }
    }

    /// `self BETWEEN low AND high`
    pub fn between(self, low: impl Into<Expr>, high: impl Into<Expr>) -> Expr {
        self.ranged(false, low.into(), high.into())
    }

    /// `self NOT BETWEEN low AND high`
    pub fn not_between(self, low: impl Into<Expr>, high: impl Into<Expr>) -> Expr {
        self.ranged(true, low.into(), high.into())
    }

    fn listed<I: Into<Expr>>(self, negated: bool, items: impl IntoIterator<Item = I>) -> Expr {
        Expr::InList { negated, operand: Box::new(self), items: items.into_iter().map(Into::into).collect() }
    }

    /// `self IN (items)`, of which there must be one or more. UNKNOWN if `self` is NULL, or if no item equals it and one is NULL.
    pub fn in_list<I: Into<Expr>>(self, items: impl IntoIterator<Item = I>) -> Expr {
        self.listed(false, items)
    }

    /// `self NOT IN (items)`, the NOT of [`in_list`](Expr::in_list): with a NULL among the items it is FALSE or UNKNOWN, never TRUE.
    ///
    /// ```
    /// use push_down_filter::{col, field, lit, null, scan, Names, Type::Integer};
    ///
    /// let plan = scan(1, [field(1, 1, Integer)]).filter(col(1, 1).not_in_list([lit(4), null(Integer)]));
    /// assert_eq!(plan.to_text(&Names::NONE), "Filter t1.c1 NOT IN (4, NULL:int)\n  TableScan 1 [t1.c1:int]\n");
    /// ```
    pub fn not_in_list<I: Into<Expr>>(self, items: impl IntoIterator<Item = I>) -> Expr {
        self.listed(true, items)
    }

    /// Marks a function as volatile.
    ///
    /// # Panics
    ///
    /// If the expression is no function: the mark would be lost.
    pub fn volatile(mut self) -> Expr {
        match &mut self {
            Expr::Function { volatile, .. } => *volatile = true,
            _ => panic!("only a function can be volatile"),
        }
        self
    }

    /// Marks a function as leafward.
    ///
    /// # Panics
    ///
    /// If the expression is no function: the mark would be lost.
    pub fn leafward(mut self) -> Expr {
        match &mut self {
            Expr::Function { leafward, .. } => *leafward = true,
            _ => panic!("only a function can be leafward"),
        }
        self
    }

    /// This under an output name, as an entry of a Projection or a group of an Aggregate; the qualifier 0 is none.
    pub fn named(self, qualifier: u32, name: u32) -> Entry {
        Entry { name: Name { qualifier, name }, expr: self }
    }

    /// This as a key to sort by, the least first.
    pub fn asc(self) -> SortKey {
        SortKey { expr: self, descending: false }
    }

    /// This as a key to sort by, the greatest first. NULL comes last either way.
    pub fn desc(self) -> SortKey {
        SortKey { expr: self, descending: true }
    }
}
