//! Plans as text: a line for each plan, the plans that it reads below it.
//!
//! ```text
#![doc = include_str!("text/grammar.txt")]
//! ```

mod exprs;
mod names;
mod reader;
mod reading;
mod tokens;
pub mod words;
mod writing;

pub use names::{Named, Names};
pub use reading::{read, Written};
pub use writing::{expr, line, lines, write};

/// How plans are written, for readers.
pub const GRAMMAR: &str = include_str!("text/grammar.txt");

/// A place in a text; line and column are counted from 1.
#[derive(Clone, Copy, Debug, PartialEq, Eq)]
pub struct Place {
    /// The line, from 1.
    pub line: usize,
    /// The character in its line, from 1.
    pub column: usize,
}

impl Place {
    pub(crate) const START: Place = Place { line: 1, column: 1 };

    fn trouble(self, what: impl Into<String>) -> Trouble {
        Trouble { place: self, what: what.into() }
    }
}

/// Why a text cannot be read, and where.
#[derive(Clone, Debug, PartialEq, Eq)]
pub struct Trouble {
    /// Where the text stops being readable.
    pub place: Place,
    /// What was expected there, or what is wrong.
    pub what: String,
}

impl std::fmt::Display for Trouble {
    fn fmt(&self, f: &mut std::fmt::Formatter<'_>) -> std::fmt::Result {
        write!(f, "{}:{}: {}", self.place.line, self.place.column, self.what)
    }
}

impl std::error::Error for Trouble {}
