//! Why a call is refused.

use crate::explain::explain;
use crate::text::Names;

/// Which test a call met. Of several the one with the lowest number is given.
#[derive(Clone, Copy, Debug, PartialEq, Eq, PartialOrd, Ord, Hash)]
#[non_exhaustive]
pub enum Reason {
    /// 1: the length is 0, no multiple of 32, or over 2,048 records.
    Buffer,
    /// 2: a record has an unknown kind, or a word that is out of its range.
    Record,
    /// 3: a link is bad, or there are records that no link leads to.
    Link,
    /// 4: a record stands deeper than 256.
    Depth,
    /// 5: a record has the wrong children, the root is no plan, or a list holds more than 128.
    Form,
    /// 6: a reference does not name one field, a schema has fields that cannot be told apart, or more than 64.
    Name,
    /// 7: an expression has the wrong type, or two scans of a table or two inputs of a Union differ.
    Type,
    /// 8: there is no plan at the record asked for, or, in a row test, no Filter.
    Call,
    /// 9: the values or NULL marks of a row are not as its fields ask.
    Row,
    /// 10: the predicate of a row test holds a function, whose meaning the library does not know.
    Function,
    /// 11: the answer, or the plan after two Filters were merged, is over 2,048 records, depth 256 or 128 in a list.
    Result,
    /// 12: the output is shorter than the answer.
    Output,
    /// A number that this crate has no name for: the library is newer.
    Other(u32),
}

/// By number, from 1.
const REASONS: [(Reason, &str); 12] = [
    (Reason::Buffer, "length 0, not whole records, or over 2,048 records"),
    (Reason::Record, "an unknown kind or a word out of range"),
    (Reason::Link, "a bad link, or records that no link leads to"),
    (Reason::Depth, "deeper than 256"),
    (Reason::Form, "wrong children, a root that is no plan, or a list over 128"),
    (Reason::Name, "a reference or schema rule broken, or over 64 fields"),
    (Reason::Type, "a type rule broken"),
    (Reason::Call, "no plan at the record asked for, or, in a row test, no Filter"),
    (Reason::Row, "values or marks not as the input's fields ask"),
    (Reason::Function, "the predicate holds a function"),
    (
        Reason::Result,
        "the answer, or the plan after a merge of Filters, is over 2,048 records, depth 256 or 128 in a list",
    ),
    (Reason::Output, "the output is shorter than the answer"),
];

/// The row of a number that has a name.
fn row(number: u32) -> Option<(Reason, &'static str)> {
    REASONS.get((number as usize).checked_sub(1)?).copied()
}

impl Reason {
    /// The reason that a refusal's number stands for.
    pub fn of_number(number: u32) -> Reason {
        row(number).map_or(Reason::Other(number), |(reason, _)| reason)
    }

    /// The number, as calls give it.
    pub fn number(self) -> u32 {
        match self {
            Reason::Other(number) => number,
            named => REASONS.iter().position(|(reason, _)| *reason == named).map_or(0, |at| at as u32 + 1),
        }
    }

    /// What it says of any image or call, in words.
    pub fn words(self) -> &'static str {
        row(self.number()).map_or("a test that is newer than this crate", |(_, words)| words)
    }
}

/// A refused call: why, and the record that is named. An output holds zeros then.
#[derive(Clone, Copy, Debug, PartialEq, Eq, Hash)]
pub struct Refusal {
    /// The test that was met.
    pub reason: Reason,
    /// The record that broke the rule, or that was asked for; 0 where a test names none.
    pub record: u32,
}

impl Refusal {
    /// The refusal with a number and a record, as calls give them.
    pub fn new(number: u32, record: u32) -> Refusal {
        Refusal { reason: Reason::of_number(number), record }
    }

    /// The number of the reason, 1 or more.
    pub fn number(&self) -> u32 {
        self.reason.number()
    }
}

impl std::fmt::Display for Refusal {
    fn fmt(&self, f: &mut std::fmt::Formatter<'_>) -> std::fmt::Result {
        write!(f, "refused {} at {}: {}", self.number(), self.record, self.reason.words())
    }
}

impl std::error::Error for Refusal {}

/// A refused plan or image, with what is wrong in words.
#[derive(Clone, Debug, PartialEq, Eq, Hash)]
pub struct Error {
    /// The number and the record.
    pub refusal: Refusal,
    /// What is wrong at the record, as [`explain`] says it with numbers for names.
    pub words: String,
}

impl Error {
    /// The refusal of a call on the image, explained.
    pub fn new(image: &[u8], refusal: Refusal) -> Error {
        Error { refusal, words: explain(image, refusal, &Names::NONE) }
    }
}

impl std::fmt::Display for Error {
    fn fmt(&self, f: &mut std::fmt::Formatter<'_>) -> std::fmt::Result {
        write!(f, "refused {}: {}", self.refusal.number(), self.words)
    }
}

impl std::error::Error for Error {}

#[cfg(test)]
mod tests {
    use super::*;

    #[test]
    fn every_number_has_a_reason_and_every_reason_its_number() {
        for number in [1, 2, 3, 4, 5, 6, 7, 8, 9, 10, 11, 12, 13, 18, u32::MAX] {
            let refusal = Refusal::new(number, 7);
            assert_eq!(refusal.number(), number);
            assert_eq!(matches!(refusal.reason, Reason::Other(_)), number > 12);
            assert!(refusal.to_string().starts_with(&format!("refused {number} at 7: ")));
        }
    }
}
