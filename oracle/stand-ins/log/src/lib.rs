//! A stand-in for the crate `log`: the one macro that wkt uses, which does nothing.
//! It can't influence reading: the real one only writes a message to a log. The
//! arguments are borrowed, as the real macro borrows them, and dropped.

#[macro_export]
macro_rules! warn {
    ($format:literal $(, $argument:expr)* $(,)?) => {
        $(let _ = &$argument;)*
    };
}
