//! The listing: each longest run of one right other than none, four words a run, from a run number on.

use crate::entries::{eight, leads, right_at, sixteen};
use crate::shape::{leaf, table, Shape};
use crate::sound::used_places;

struct Lister<'a> {
    runs: &'a mut [u32],
    from: usize,
    count: usize,
    domain: u32,
    start: u32,
    right: u32,
}

/// Refusal 6; the shape fits. Gives how many runs there are.
pub fn list(pool: &[u32], shape: Shape, from: u32, runs: &mut [u32]) -> Result<u32, u32> {
    used_places(pool, shape)?;
    let mut lister = Lister { runs, from: from as usize, count: 0, domain: 0, start: 0, right: 0 };
    for domain in 0..shape.d {
        lister.domain = domain;
        lister.root(pool);
        lister.turn(1 << 30, 0);
    }
    Ok(lister.count as u32)
}

impl Lister<'_> {
    fn root(&mut self, pool: &[u32]) {
        for (block, &entry) in (0u32..).zip(table(pool, 1024 * self.domain)) {
            if leads(entry) {
                self.middle(pool, table(pool, entry), block << 20);
            } else {
                self.rights(entry, block << 20, 1 << 17);
            }
        }
    }

    fn middle(&mut self, pool: &[u32], entries: &[u32], start: u32) {
        for (&entry, at) in entries.iter().zip((start..).step_by(1 << 10)) {
            if !leads(entry) {
                self.rights(entry, at, 1 << 7);
                continue;
            }
            for (&entry, at) in leaf(pool, entry).iter().zip((at..).step_by(16)) {
                self.words(entry, at);
            }
        }
    }

    #[inline]
    fn rights(&mut self, entry: u32, start: u32, sub: u32) {
        if entry == eight(self.right) {
            return;
        }
        for i in 0..8 {
            self.turn(start + i * sub, right_at(entry, i));
        }
    }

    #[inline]
    fn words(&mut self, entry: u32, start: u32) {
        if entry == sixteen(self.right) {
            return;
        }
        for i in 0..16 {
            self.turn(start + i, right_at(entry, i));
        }
    }

    /// From word `at` on the right is `right`.
    #[inline]
    fn turn(&mut self, at: u32, right: u32) {
        if right == self.right {
            return;
        }
        if self.right != 0 {
            self.write(at);
        }
        self.start = at;
        self.right = right;
    }

    fn write(&mut self, end: u32) {
        if let Some(place) = self.count.checked_sub(self.from) {
            if let Some(run) = self.runs.get_mut(4 * place..4 * place + 4) {
                run.copy_from_slice(&[self.domain, 4 * self.start, end.wrapping_mul(4).wrapping_sub(1), self.right]);
            }
        }
        self.count += 1;
    }
}
