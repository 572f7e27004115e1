//! Stand-in for `arrow`: the types of fields, and the batch of one NULL that utils.rs makes.

pub mod datatypes {
    use std::sync::Arc;

    pub type FieldRef = Arc<Field>;

    /// The source asks whether a type is a Struct, and makes a column of Null.
    #[derive(Clone, Debug, PartialEq, Eq)]
    pub enum DataType {
        Null,
        Struct(Vec<FieldRef>),
    }

    #[derive(Clone, Debug, PartialEq, Eq)]
    pub struct Field {
        name: String,
        data_type: DataType,
    }

    impl Field {
        pub fn new(name: impl Into<String>, data_type: DataType, _nullable: bool) -> Field {
            Field { name: name.into(), data_type }
        }

        pub fn name(&self) -> &String {
            &self.name
        }

        pub fn data_type(&self) -> &DataType {
            &self.data_type
        }
    }

    pub struct Schema {
        pub fields: Vec<FieldRef>,
    }

    impl Schema {
        pub fn new(fields: Vec<Field>) -> Schema {
            Schema { fields: fields.into_iter().map(Arc::new).collect() }
        }
    }
}

pub mod array {
    use crate::datatypes::{DataType, Schema};
    use crate::error::ArrowError;
    use std::sync::Arc;

    pub type ArrayRef = Arc<BooleanArray>;

    #[allow(clippy::len_without_is_empty)]
    pub trait Array {
        fn len(&self) -> usize;
        fn is_null(&self, at: usize) -> bool;
    }

    #[derive(Debug)]
    pub struct BooleanArray(Vec<Option<bool>>);

    impl BooleanArray {
        pub fn value(&self, at: usize) -> bool {
            self.0[at].unwrap_or_default()
        }
    }

    impl Array for BooleanArray {
        fn len(&self) -> usize {
            self.0.len()
        }

        fn is_null(&self, at: usize) -> bool {
            self.0[at].is_none()
        }
    }

    pub fn new_null_array(_data_type: &DataType, length: usize) -> ArrayRef {
        Arc::new(BooleanArray(vec![None; length]))
    }

    /// Its one column is NULL, and the stand-in for physical expressions knows that.
    pub struct RecordBatch;

    impl RecordBatch {
        pub fn try_new(_schema: Arc<Schema>, _columns: Vec<ArrayRef>) -> Result<RecordBatch, ArrowError> {
            Ok(RecordBatch)
        }
    }
}

pub mod error {
    #[derive(Debug)]
    pub enum ArrowError {}
}
