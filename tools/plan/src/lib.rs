//! The tool `plan`: plans as text or as images, checked, shown, rewritten and passed over by the proved library. `plan --help` says how.

pub mod arguments;
pub mod columns;
pub mod commands;
pub mod derivations;
pub mod fields;
pub mod help;
pub mod input;
pub mod moves;
pub mod outline;
pub mod page;
pub mod steps;

/// What a command leaves behind when it fails, by its exit status.
#[derive(Clone, Debug, PartialEq, Eq)]
pub enum Failure {
    /// The library refused the plan or the call: status 1.
    Refused(String),
    /// What it was to read or write cannot be used: status 2.
    Unusable(String),
    /// Its words cannot be used: status 2.
    Misused(String),
}

/// What a command prints, and whether the library granted it.
#[derive(Clone, Debug, PartialEq, Eq)]
pub struct Answer {
    pub output: Vec<u8>,
    pub granted: bool,
}

impl From<String> for Answer {
    fn from(text: String) -> Answer {
        Answer { output: text.into_bytes(), granted: true }
    }
}

pub type Outcome = Result<Answer, Failure>;
