use crate::qualified_name;
use std::fmt;

/// A bare table name; no image holds a catalogue or a database.
#[derive(Clone, Debug, PartialEq, Eq, PartialOrd, Ord, Hash)]
pub struct TableReference(pub String);

impl From<&str> for TableReference {
    fn from(name: &str) -> TableReference {
        TableReference(name.to_string())
    }
}

impl fmt::Display for TableReference {
    fn fmt(&self, f: &mut fmt::Formatter<'_>) -> fmt::Result {
        f.write_str(&self.0)
    }
}

/// Ordered by qualifier, none first, then by name.
#[derive(Clone, Debug, PartialEq, Eq, PartialOrd, Ord, Hash)]
pub struct Column {
    pub relation: Option<TableReference>,
    pub name: String,
}

impl Column {
    pub fn new(relation: Option<impl Into<TableReference>>, name: impl Into<String>) -> Column {
        Column { relation: relation.map(Into::into), name: name.into() }
    }

    pub fn from_name(name: impl Into<String>) -> Column {
        Column { relation: None, name: name.into() }
    }

    pub fn name(&self) -> &str {
        &self.name
    }

    pub fn flat_name(&self) -> String {
        qualified_name(self.relation.as_ref(), &self.name)
    }
}
