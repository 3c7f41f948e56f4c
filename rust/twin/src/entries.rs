//! Entries: eight rights, pointers, and rounding of regions.

/// Whether a root or middle entry is eight rights: bit 31 set, bits 30 to 16 clear.
#[inline]
pub fn is_rights(entry: u32) -> bool {
    entry & 0xFFFF_0000 == 0x8000_0000
}

/// Whether an entry leads to a table.
#[inline]
pub fn leads(entry: u32) -> bool {
    entry < 0x8000_0000
}

/// Right `i` of an entry.
#[inline]
pub fn right_at(entry: u32, i: u32) -> u32 {
    entry >> (2 * i) & 3
}

/// The root or middle entry with one right in all eight sub-blocks.
#[inline]
pub fn eight(right: u32) -> u32 {
    0x8000_0000 | (right * 0x5555)
}

/// The leaf entry with one right on all sixteen words.
#[inline]
pub fn sixteen(right: u32) -> u32 {
    right * 0x5555_5555
}

/// The first and the last of an entry's `parts` parts around part `i` that all have its right. In `other` a place is
/// zero where the right is the same; the upper bits of eight rights are no rights, so the last is capped.
#[inline]
pub fn same_around(entry: u32, i: u32, parts: u32) -> (u32, u32) {
    let other = entry ^ sixteen(right_at(entry, i));
    let below = other & ((1 << (2 * i)) - 1);
    let first = (33 - below.leading_zeros()) / 2;
    let same = (other >> (2 * i)).trailing_zeros() / 2;
    (first, (i + same).min(parts) - 1)
}

/// The words `lo <= w < hi` of memory.
#[derive(Clone, Copy)]
pub struct Region {
    pub lo: u32,
    pub hi: u32,
}

impl Region {
    pub const EMPTY: Region = Region { lo: 0, hi: 0 };

    /// Rounded as a change rounds; refusals 4 and 5.
    pub fn rounded(start: u32, length: u32) -> Result<Region, u32> {
        if length == 0 {
            return Err(4);
        }
        let lo = start / 4;
        let words = (u64::from(start % 4) + u64::from(length)).div_ceil(4);
        if u64::from(lo) + words > 1 << 30 {
            return Err(5);
        }
        Ok(Region { lo, hi: lo + words as u32 })
    }

    /// How a stretch of `n` words lies to the region.
    #[inline]
    pub fn cover(self, start: u32, n: u32) -> Cover {
        if start >= self.hi || start + n <= self.lo {
            Cover::None
        } else if self.lo <= start && start + n <= self.hi {
            Cover::All
        } else {
            Cover::Part
        }
    }
}

#[derive(Clone, Copy, PartialEq, Eq)]
pub enum Cover {
    None,
    Part,
    All,
}

/// A region and the right that its words get.
#[derive(Clone, Copy)]
pub struct Paint {
    pub region: Region,
    pub right: u32,
}

impl Paint {
    pub const NOTHING: Paint = Paint { region: Region::EMPTY, right: 0 };

    /// A leaf entry, for the sixteen words from `start`, once painted.
    #[inline]
    pub fn leaf_entry(self, entry: u32, start: u32) -> u32 {
        let first = self.region.lo.saturating_sub(start).min(16);
        let end = self.region.hi.saturating_sub(start).min(16);
        if first >= end {
            return entry;
        }
        let mask = ((1u64 << (2 * end)) - (1u64 << (2 * first))) as u32;
        entry & !mask | sixteen(self.right) & mask
    }
}
