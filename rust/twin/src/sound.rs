//! Soundness, and with it which places are in use.

use crate::entries::is_rights;
use crate::shape::{table, Shape};

/// The places in use, a bit each.
#[derive(Clone, Copy, Default)]
pub struct Used {
    pub middles: u64,
    pub leaves: u64,
}

/// Refusal 6, unless every pointer names a place of its kind and no place is reached twice.
pub fn used_places(pool: &[u32], shape: Shape) -> Result<Used, u32> {
    let mut used = Used::default();
    for &entry in &pool[..shape.first_middle()] {
        if !is_rights(entry) {
            let place = shape.middle_place(entry).ok_or(6u32)?;
            mark(&mut used.middles, place)?;
            mark_leaves(pool, shape, entry, &mut used)?;
        }
    }
    Ok(used)
}

fn mark_leaves(pool: &[u32], shape: Shape, middle: u32, used: &mut Used) -> Result<(), u32> {
    for &entry in table(pool, middle) {
        if !is_rights(entry) {
            let place = shape.leaf_place(entry).ok_or(6u32)?;
            mark(&mut used.leaves, place)?;
        }
    }
    Ok(())
}

fn mark(used: &mut u64, place: u32) -> Result<(), u32> {
    let bit = 1 << place;
    if *used & bit != 0 {
        return Err(6);
    }
    *used |= bit;
    Ok(())
}
