//! A region of memory, rounded to words: the start down to a multiple of 4; its low two bits are added to the length,
//! which is then rounded up to a multiple of 4.

use crate::Refusal;

/// Memory words `lo` up to and without `hi`.
#[derive(Clone, Copy, Debug, PartialEq, Eq)]
pub struct Region {
    pub lo: u32,
    pub hi: u32,
}

impl Region {
    /// Refusal 4 for length 0, refusal 5 where the rounded region ends above 2^32.
    pub fn rounded(start: u32, length: u32) -> Result<Region, Refusal> {
        if length == 0 {
            return Err(4);
        }
        let (start, length) = (u64::from(start), u64::from(length));
        let first = start / 4 * 4;
        let bytes = (start % 4 + length).div_ceil(4) * 4;
        if first + bytes > 1 << 32 {
            return Err(5);
        }
        Ok(Region { lo: (first / 4) as u32, hi: ((first + bytes) / 4) as u32 })
    }

    pub fn covers(self, word: u32) -> bool {
        self.lo <= word && word < self.hi
    }
}
