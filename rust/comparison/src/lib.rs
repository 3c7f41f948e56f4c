//! Comparisons of the library with the independent model, on generated inputs.
//!
//! `given` makes inputs, `compare` runs a subject (the library, its twin, or a wrong program) on them and holds every
//! answer against the model. A comparison gives the first difference that it meets, so that the tests can ask for none
//! of the library and for one of each wrong program. A tally counts the kinds of cases met; a kind that was never met
//! fails the test.
#![forbid(unsafe_code)]

pub mod compare;
pub mod faults;
pub mod given;
pub mod rng;
pub mod subject;
pub mod suite;
pub mod tally;

/// Where a subject and the model differ, told so that a reader can try it by hand.
#[derive(Debug)]
pub struct Difference(pub String);

/// Ends a comparison with a difference.
#[macro_export]
macro_rules! differ {
    ($($told:tt)*) => {
        return Err($crate::Difference(format!($($told)*)))
    };
}

/// Ends a comparison with a difference unless a condition holds.
#[macro_export]
macro_rules! hold {
    ($condition:expr, $($told:tt)*) => {
        if !$condition {
            $crate::differ!($($told)*);
        }
    };
}
