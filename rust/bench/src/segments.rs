//! Rights as an interval map: what a supervisor's programmer might write in an afternoon.

use std::collections::BTreeMap;

/// How many words the memory has.
const WORDS: u32 = 1 << 30;

/// The rights of one domain: each key is the first word of a segment of one right, which goes up to the next key.
pub struct Segments(BTreeMap<u32, u32>);

impl Segments {
    pub fn new() -> Segments {
        Segments(BTreeMap::from([(0, 0)]))
    }

    /// The right of a word.
    #[inline(never)]
    pub fn right(&self, word: u32) -> u32 {
        self.0.range(..=word).next_back().map_or(0, |(_, &right)| right)
    }

    /// Gives the words from `lo` up to `hi` a right: the segments there go, and neighbours of one right are joined.
    #[inline(never)]
    pub fn set(&mut self, lo: u32, hi: u32, right: u32) {
        let after = if hi < WORDS { Some(self.right(hi)) } else { None };
        while let Some((&first, _)) = self.0.range(lo..=hi.min(WORDS - 1)).next() {
            self.0.remove(&first);
        }
        if let Some(after) = after.filter(|&after| after != right) {
            self.0.insert(hi, after);
        }
        if lo == 0 || self.right(lo - 1) != right {
            self.0.insert(lo, right);
        }
    }
}

#[cfg(test)]
mod tests {
    use super::*;

    #[test]
    fn neighbours_are_joined() {
        let mut map = Segments::new();
        map.set(4, 8, 2);
        map.set(8, 12, 2);
        assert_eq!(map.0, BTreeMap::from([(0, 0), (4, 2), (12, 0)]));
        map.set(6, 10, 1);
        assert_eq!(map.0, BTreeMap::from([(0, 0), (4, 2), (6, 1), (10, 2), (12, 0)]));
        map.set(0, WORDS, 3);
        assert_eq!(map.0, BTreeMap::from([(0, 3)]));
    }
}
