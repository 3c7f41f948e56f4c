//! The shape of a pool, and its places.

use crate::LENGTH;

pub const TABLE: usize = 1024;
pub const LEAF: usize = 64;

#[derive(Clone, Copy)]
pub struct Shape {
    pub d: u32,
    pub m: u32,
    pub l: u32,
}

impl Shape {
    /// The shape that lent words say: 101 where they are not five; 1 unless the form is the paper's, it is in range and
    /// the pool has its length.
    pub fn fitting(pool: &[u32], words: &[u32]) -> Result<Shape, u32> {
        let &[form, d, m, l, v] = words else {
            return Err(LENGTH);
        };
        let in_range = form == 0 && v == 0 && (1..=4).contains(&d) && m <= 8 && l <= 64;
        if in_range && pool.len() == (1024 * (d + m) + 64 * l) as usize {
            Ok(Shape { d, m, l })
        } else {
            Err(1)
        }
    }

    pub fn first_middle(self) -> usize {
        TABLE * self.d as usize
    }

    pub fn middle(self, place: u32) -> u32 {
        1024 * (self.d + place)
    }

    pub fn leaf(self, place: u32) -> u32 {
        1024 * (self.d + self.m) + 64 * place
    }

    /// The number of the middle place that a pointer names.
    #[inline]
    pub fn middle_place(self, pointer: u32) -> Option<u32> {
        let place = (pointer / 1024).wrapping_sub(self.d);
        (pointer.is_multiple_of(1024) && place < self.m).then_some(place)
    }

    /// The number of the leaf place that a pointer names.
    #[inline]
    pub fn leaf_place(self, pointer: u32) -> Option<u32> {
        let place = (pointer / 64).wrapping_sub(16 * (self.d + self.m));
        (pointer.is_multiple_of(64) && place < self.l).then_some(place)
    }
}

/// The table that begins at a pool word.
#[inline]
pub fn table(pool: &[u32], at: u32) -> &[u32] {
    &pool[at as usize..at as usize + TABLE]
}

/// The leaf that begins at a pool word.
#[inline]
pub fn leaf(pool: &[u32], at: u32) -> &[u32] {
    &pool[at as usize..at as usize + LEAF]
}
