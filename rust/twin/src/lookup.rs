//! Lookup: a walk of at most three loads, and how far its answer reaches.

use crate::entries::{is_rights, right_at, same_around};
use crate::shape::Shape;

#[derive(Clone, Copy)]
pub struct Found {
    pub right: u32,
    pub entry: u32,
    pub loads: u32,
}

/// An entry that decides: `parts` rights, each for 2^`bits` bytes.
struct Deciding {
    entry: u32,
    bits: u32,
    parts: u32,
    loads: u32,
}

impl Deciding {
    #[inline]
    fn part(&self, address: u32) -> u32 {
        address >> self.bits & (self.parts - 1)
    }

    #[inline]
    fn found(&self, address: u32) -> Found {
        Found { right: right_at(self.entry, self.part(address)), entry: self.entry, loads: self.loads }
    }

    /// The first and the last byte of the stretch of one right around an address.
    #[inline]
    fn reach(&self, address: u32) -> (u32, u32) {
        let part = self.part(address);
        let (low, high) = same_around(self.entry, part, self.parts);
        let block = (address >> self.bits) - part;
        ((block + low) << self.bits, (block + high) << self.bits | ((1 << self.bits) - 1))
    }
}

/// What is asked of the entry that decides; refusals 2 and 6; the shape fits.
#[inline]
fn walk<T>(pool: &[u32], shape: Shape, domain: u32, address: u32, asked: impl Fn(Deciding) -> T) -> Result<T, u32> {
    if domain >= shape.d {
        return Err(2);
    }
    let root = pool[(1024 * domain + (address >> 22)) as usize];
    if is_rights(root) {
        return Ok(asked(Deciding { entry: root, bits: 19, parts: 8, loads: 1 }));
    }
    shape.middle_place(root).ok_or(6u32)?;
    let middle = pool[(root + (address >> 12 & 0x3FF)) as usize];
    if is_rights(middle) {
        return Ok(asked(Deciding { entry: middle, bits: 9, parts: 8, loads: 2 }));
    }
    shape.leaf_place(middle).ok_or(6u32)?;
    let leaf = pool[(middle + (address >> 6 & 0x3F)) as usize];
    Ok(asked(Deciding { entry: leaf, bits: 2, parts: 16, loads: 3 }))
}

/// A walk for a check or a step, which want no more than this.
#[inline]
pub fn lookup(pool: &[u32], shape: Shape, domain: u32, address: u32) -> Result<Found, u32> {
    walk(pool, shape, domain, address, |deciding| deciding.found(address))
}

/// The five results of a lookup.
#[inline]
pub fn reaching(pool: &[u32], shape: Shape, domain: u32, address: u32) -> Result<[u32; 5], u32> {
    walk(pool, shape, domain, address, |deciding| {
        let Found { right, entry, loads } = deciding.found(address);
        let (first, last) = deciding.reach(address);
        [right, entry, loads, first, last]
    })
}
