//! Refusals: the paper's numbers, with what they say.

use std::fmt;

/// Why a call was refused: a number of the table in `include/goleuthan.h`. The pool and all states are as they came.
#[derive(Clone, Copy, Debug, PartialEq, Eq, Hash)]
pub struct Refusal(u32);

impl Refusal {
    /// The number, from 1 to 20.
    pub fn number(self) -> u32 {
        self.0
    }

    /// A call's number as a result.
    pub(crate) fn none_or(number: u32) -> Result<(), Refusal> {
        match number {
            0 => Ok(()),
            refused => Err(Refusal(refused)),
        }
    }

    fn says(self) -> &'static str {
        match self.0 {
            1 => "the form or V is not 0, D, M or L is beyond its range, or the pool has another length",
            2 => "a domain is D or more: one that is named, or the caller",
            3 => "the right is above 3",
            4 => "the length is 0",
            5 => "the region ends above 2^32",
            6 => "the pool is not sound, or the walk met a bad entry",
            7 => "the pool is sound but not settled: tidy it first",
            8 => "there are not enough middle or leaf places for these rights",
            9 => "there is no such access kind or size",
            10 => "the address or target is not a multiple of the access size",
            11 => "the gate's address is not a multiple of 4",
            12 => "the gate is new and 64 are present",
            13 => "there is no gate to remove",
            14 => "the switch gate leads to its own domain",
            15 => "switch gate: the stack is full",
            16 => "return gate: the stack is empty",
            17 => "return gate: the target differs",
            18 => "a count of gates or regions is above 64, a depth above 16 or a next-pointer above 63",
            19 => "the caller may not: a region, or a word of the change, does not allow it",
            20 => "the region is new and 64 are present",
            _ => "unknown",
        }
    }
}

impl fmt::Display for Refusal {
    fn fmt(&self, f: &mut fmt::Formatter) -> fmt::Result {
        write!(f, "refused {}: {}", self.0, self.says())
    }
}

impl std::error::Error for Refusal {}
