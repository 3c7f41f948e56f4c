//! The shape of a pool: how many roots, middle places and leaf places it has, and where they begin.

use crate::Refusal;

pub const TABLE: usize = 1024;
pub const LEAF: usize = 64;

#[derive(Clone, Copy, Debug, PartialEq, Eq, Hash)]
pub struct Shape {
    pub domains: u32,
    pub middles: u32,
    pub leaves: u32,
}

impl Shape {
    pub const fn new(domains: u32, middles: u32, leaves: u32) -> Shape {
        Shape { domains, middles, leaves }
    }

    pub fn in_range(self) -> bool {
        (1..=4).contains(&self.domains) && self.middles <= 8 && self.leaves <= 64
    }

    /// Refusal 1, unless the numbers are in range and the pool has exactly this length.
    pub fn fits(self, pool: &[u32]) -> Result<(), Refusal> {
        if self.in_range() && pool.len() == self.length() {
            Ok(())
        } else {
            Err(1)
        }
    }

    /// The length of a pool of this shape, which is in range.
    pub fn length(self) -> usize {
        self.leaf(self.leaves as usize)
    }

    /// The pool word where a domain's root begins.
    pub fn root(self, domain: usize) -> usize {
        TABLE * domain
    }

    /// The pool word where a middle place begins.
    pub fn middle(self, place: usize) -> usize {
        TABLE * (self.domains as usize + place)
    }

    /// The pool word where a leaf place begins.
    pub fn leaf(self, place: usize) -> usize {
        TABLE * (self.domains as usize + self.middles as usize) + LEAF * place
    }

    /// The middle place that begins at a pool word, if one does.
    pub fn middle_at(self, word: u32) -> Option<usize> {
        (0..self.middles as usize).find(|place| self.middle(*place) == word as usize)
    }

    /// The leaf place that begins at a pool word, if one does.
    pub fn leaf_at(self, word: u32) -> Option<usize> {
        (0..self.leaves as usize).find(|place| self.leaf(*place) == word as usize)
    }

    /// A fresh pool: every root word 0x80000000, every other word 0.
    pub fn fresh(self) -> Vec<u32> {
        let mut words = vec![0; self.length()];
        words[..self.middle(0)].fill(0x8000_0000);
        words
    }
}
