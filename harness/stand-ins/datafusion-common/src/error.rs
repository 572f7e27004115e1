use arrow::error::ArrowError;

pub type Result<T, E = DataFusionError> = std::result::Result<T, E>;

#[derive(Debug)]
pub enum DataFusionError {
    Internal(String),
    Plan(String),
    SchemaError(String),
}

impl From<ArrowError> for DataFusionError {
    fn from(error: ArrowError) -> DataFusionError {
        match error {}
    }
}

#[macro_export]
macro_rules! internal_err {
    ($($message:tt)*) => {
        Err($crate::DataFusionError::Internal(format!($($message)*)))
    };
}

#[macro_export]
macro_rules! plan_err {
    ($($message:tt)*) => {
        Err($crate::DataFusionError::Plan(format!($($message)*)))
    };
}

#[macro_export]
macro_rules! assert_eq_or_internal_err {
    ($left:expr, $right:expr, $($message:tt)*) => {
        if $left != $right {
            return $crate::internal_err!($($message)*);
        }
    };
}
