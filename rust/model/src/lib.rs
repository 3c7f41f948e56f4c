//! The independent model: what the paper says, computed from rights.
//!
//! A domain's rights are a sorted list of segments, and everything about tables is worked out from them: which blocks
//! and pages want a table, whether there is room, which place each table has, and what every pool word then holds. It
//! is written from the paper alone and shares no code with the library or with its twin. It is meant to be compared
//! with the paper by reading, not to be fast.
#![forbid(unsafe_code)]

pub mod access;
pub mod buffer;
pub mod change;
pub mod face;
pub mod gates;
pub mod listing;
pub mod program;
pub mod region;
pub mod regions;
pub mod rights;
pub mod shape;
pub mod state;
pub mod step;
pub mod walk;

/// A number of the paper's table; the model never gives 0 as one.
pub type Refusal = u32;
