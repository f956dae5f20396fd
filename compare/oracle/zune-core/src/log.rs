//! Logging that looks at its words and says nothing.

#[macro_export]
macro_rules! silent {
    ($($words:tt)*) => {
        let _ = ::core::format_args!($($words)*);
    };
}

pub use crate::silent as trace;
