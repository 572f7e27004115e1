use crate::{Column, DataFusionError, TableReference};
use arrow::datatypes::{FieldRef, Schema};
use std::sync::Arc;

pub type DFSchemaRef = Arc<DFSchema>;

/// The fields of a plan, each with its qualifier.
#[derive(Clone, Debug)]
pub struct DFSchema {
    fields: Vec<(Option<TableReference>, FieldRef)>,
}

impl DFSchema {
    pub fn new(fields: Vec<(Option<TableReference>, FieldRef)>) -> DFSchema {
        DFSchema { fields }
    }

    pub fn iter(&self) -> impl Iterator<Item = (Option<&TableReference>, &FieldRef)> {
        self.fields.iter().map(|(qualifier, field)| (qualifier.as_ref(), field))
    }

    pub fn qualified_field(&self, at: usize) -> (Option<&TableReference>, &FieldRef) {
        let (qualifier, field) = &self.fields[at];
        (qualifier.as_ref(), field)
    }

    pub fn maybe_index_of_column(&self, column: &Column) -> Option<usize> {
        let is_named = |(qualifier, field): (Option<&TableReference>, &FieldRef)| {
            qualifier == column.relation.as_ref() && *field.name() == column.name
        };
        self.iter().position(is_named)
    }
}

impl TryFrom<Arc<Schema>> for DFSchema {
    type Error = DataFusionError;

    fn try_from(schema: Arc<Schema>) -> Result<DFSchema, DataFusionError> {
        Ok(DFSchema { fields: schema.fields.iter().map(|field| (None, field.clone())).collect() })
    }
}

/// `qualifier.name`, or the name alone.
pub fn qualified_name(qualifier: Option<&TableReference>, name: &str) -> String {
    match qualifier {
        Some(qualifier) => format!("{qualifier}.{name}"),
        None => name.to_string(),
    }
}
