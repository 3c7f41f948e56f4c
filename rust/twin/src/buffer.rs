//! The lookaside buffer of 257 words: 64 slots of domain, level, block, entry, then the next-pointer.

use crate::entries::{is_rights, right_at, Region};
use crate::lookup::lookup;
use crate::shape::Shape;

const NEXT: usize = 256;

/// The bits of an address below an entry of each level; the entry's rights are 8 or 16 to a block.
#[inline]
fn block_bits(level: u32) -> Option<u32> {
    match level {
        1 => Some(22),
        2 => Some(12),
        3 => Some(6),
        _ => None,
    }
}

/// The right with which a slot answers, if it matches.
#[inline]
fn answer(slot: &[u32], domain: u32, address: u32) -> Option<u32> {
    let &[of, level, block, entry] = slot else {
        return None;
    };
    let bits = block_bits(level)?;
    if of != domain || (address ^ block) >> bits != 0 || block & ((1 << bits) - 1) != 0 {
        return None;
    }
    match level {
        3 => Some(right_at(entry, address >> 2 & 15)),
        _ if is_rights(entry) => Some(right_at(entry, address >> (bits - 3) & 7)),
        _ => None,
    }
}

/// Refusals 18, 2, 9, 10, and 6 on a miss; the shape fits. Gives the verdict and the loads.
pub fn check(
    pool: &[u32],
    shape: Shape,
    buffer: &mut [u32; 257],
    domain: u32,
    kind: u32,
    size: u32,
    address: u32,
) -> Result<(bool, u32), u32> {
    if buffer[NEXT] > 63 {
        return Err(18);
    }
    if domain >= shape.d {
        return Err(2);
    }
    if !matches!((kind, size), (0 | 1, 1 | 2 | 4) | (2, 4)) {
        return Err(9);
    }
    if address & (size - 1) != 0 {
        return Err(10);
    }
    if let Some(right) = buffer[..NEXT].chunks_exact(4).find_map(|slot| answer(slot, domain, address)) {
        return Ok((passes(kind, right), 0));
    }
    let found = lookup(pool, shape, domain, address)?;
    let bits = block_bits(found.loads).unwrap_or(0);
    let next = buffer[NEXT] as usize;
    buffer[4 * next..4 * next + 4].copy_from_slice(&[domain, found.loads, address >> bits << bits, found.entry]);
    buffer[NEXT] = (next as u32 + 1) % 64;
    Ok((passes(kind, found.right), found.loads))
}

/// Whether a right lets an access of a known kind pass.
#[inline]
pub fn passes(kind: u32, right: u32) -> bool {
    match kind {
        0 => right != 0,
        1 => right == 2,
        _ => right == 3,
    }
}

/// Empties the slots that a test picks; refusal 18.
pub fn flush(buffer: &mut [u32; 257], which: impl Fn(&[u32]) -> bool) -> u32 {
    if buffer[NEXT] > 63 {
        return 18;
    }
    for slot in buffer[..NEXT].chunks_exact_mut(4) {
        if which(slot) {
            slot.fill(0);
        }
    }
    0
}

/// The bytes of a slot's block, unless the slot counts as empty.
fn block_of(slot: &[u32]) -> Option<std::ops::Range<u64>> {
    let bits = block_bits(slot[1])?;
    let first = u64::from(slot[2]);
    first.is_multiple_of(1 << bits).then_some(first..first + (1 << bits))
}

pub fn flush_domain(buffer: &mut [u32; 257], domain: u32) -> u32 {
    flush(buffer, |slot| slot[0] == domain && block_of(slot).is_some())
}

/// Refusals 18, 4, 5.
pub fn flush_region(buffer: &mut [u32; 257], domain: u32, start: u32, length: u32) -> u32 {
    if buffer[NEXT] > 63 {
        return 18;
    }
    let Region { lo, hi } = match Region::rounded(start, length) {
        Ok(region) => region,
        Err(refusal) => return refusal,
    };
    let (first, end) = (4 * u64::from(lo), 4 * u64::from(hi));
    let meets = |block: std::ops::Range<u64>| block.start < end && first < block.end;
    flush(buffer, |slot| slot[0] == domain && block_of(slot).is_some_and(meets))
}
