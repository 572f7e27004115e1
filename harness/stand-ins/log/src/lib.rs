//! Stand-in for `log`: nothing is logged.

pub enum Level {
    Debug,
}

#[macro_export]
macro_rules! log_enabled {
    ($level:expr) => {{
        let _ = $level;
        false
    }};
}

#[macro_export]
macro_rules! debug {
    ($($message:tt)*) => {{
        let _ = format_args!($($message)*);
    }};
}

#[macro_export]
macro_rules! trace {
    ($($message:tt)*) => {{
        let _ = format_args!($($message)*);
    }};
}
