//! Stand-in for the crate `tracing`: `trace!` as it behaves where no subscriber listens. The
//! arguments are compiled, so that they count as used, and never evaluated.

#[macro_export]
macro_rules! trace {
    ($($field:ident = ?$value:expr,)* $message:literal $($arguments:tt)*) => {
        if false {
            $(let _ = ::std::format_args!("{:?}", $value);)*
            let _ = ::std::format_args!($message $($arguments)*);
        }
    };
}
