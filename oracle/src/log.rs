//! Stands in for the crate's log macros: a log line changes nothing, so each one is dropped.

macro_rules! trace {
    ($($text:tt)*) => {{}};
}

macro_rules! debug {
    ($($text:tt)*) => {{}};
}

macro_rules! warn {
    ($($text:tt)*) => {{}};
}

macro_rules! error {
    ($($text:tt)*) => {{}};
}
