//! Stand-in for `log`: messages are checked and dropped.

#[macro_export]
macro_rules! error {
    ($($message:tt)*) => {
        if false {
            let _ = format_args!($($message)*);
        }
    };
}

#[macro_export]
macro_rules! warn {
    ($($message:tt)*) => {
        $crate::error!($($message)*)
    };
}
