//! Enums whose members are numbered from 1, as records write them.

macro_rules! numbered {
    ($(#[$doc:meta])* $name:ident { $($(#[$of:meta])* $member:ident),* $(,)? }) => {
        $(#[$doc])*
        #[derive(Clone, Copy, Debug, PartialEq, Eq, PartialOrd, Ord, Hash)]
        pub enum $name { $($(#[$of])* $member),* }

        impl $name {
            /// All of them, by number.
            pub const ALL: &'static [$name] = &[$($name::$member),*];

            /// The number that stands for it in a record, from 1.
            pub fn number(self) -> u32 {
                self as u32 + 1
            }

            /// What a number of a record stands for.
            pub fn of_number(number: u32) -> Option<$name> {
                $name::ALL.get((number as usize).checked_sub(1)?).copied()
            }
        }
    };
}

numbered! {
    /// The type of a value; FALSE is below TRUE.
    Type {
        /// A signed number of 64 bits.
        Integer,
        /// TRUE or FALSE.
        Boolean,
    }
}

numbered! {
    /// What stands between the two operands of an [`Expr::Binary`](crate::Expr::Binary).
    Operator {
        /// Both are TRUE.
        And,
        /// One is TRUE.
        Or,
        /// Equal.
        Eq,
        /// Not equal.
        NotEq,
        /// Less.
        Lt,
        /// Less or equal.
        LtEq,
        /// Greater.
        Gt,
        /// Greater or equal.
        GtEq,
    }
}

numbered! {
    /// A test that is never UNKNOWN.
    Test {
        /// The operand is NULL.
        IsNull,
        /// It is not NULL.
        IsNotNull,
        /// It is TRUE.
        IsTrue,
        /// It is FALSE.
        IsFalse,
        /// It is UNKNOWN, the NULL of booleans.
        IsUnknown,
        /// It is FALSE or UNKNOWN.
        IsNotTrue,
        /// It is TRUE or UNKNOWN.
        IsNotFalse,
        /// It is TRUE or FALSE.
        IsNotUnknown,
    }
}

numbered! {
    /// Which rows a join gives.
    JoinKind {
        /// Pairs that match.
        Inner,
        /// Pairs that match, and left rows without a match.
        Left,
        /// Pairs that match, and right rows without a match.
        Right,
        /// Pairs that match, and rows of both sides without a match.
        Full,
        /// Left rows that have a match.
        LeftSemi,
        /// Right rows that have a match.
        RightSemi,
        /// Left rows that have none.
        LeftAnti,
        /// Right rows that have none.
        RightAnti,
    }
}

numbered! {
    /// What an entry of an Aggregate or a Window counts.
    AggregateKind {
        /// How many values are not NULL.
        Count,
        /// The least value that is not NULL.
        Min,
        /// The greatest value that is not NULL.
        Max,
    }
}
