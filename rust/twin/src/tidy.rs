//! Tidying: tables that are not wanted are given up, roots first, then the middle tables that stay.

use crate::change::Stores;
use crate::entries::{leads, Paint};
use crate::shape::Shape;
use crate::sound::used_places;
use crate::target::{block_target, page_target};

/// Refusal 6, or cut; the shape fits. Gives the number of stores.
pub fn tidy(pool: &mut [u32], shape: Shape, allowance: u32) -> Result<u32, u32> {
    used_places(pool, shape)?;
    let mut stores = Stores { pool, allowance, made: 0 };
    let mut kept = 0u64;
    for at in 0..shape.first_middle() as u32 {
        let entry = stores.pool[at as usize];
        if !leads(entry) {
            continue;
        }
        match block_target(stores.pool, entry, 0, Paint::NOTHING) {
            Some(rights) => stores.put(at, rights)?,
            None => kept |= shape.middle_place(entry).map_or(0, |place| 1 << place),
        }
    }
    for place in (0..shape.m).filter(|place| kept >> place & 1 == 1) {
        tidy_middle(&mut stores, shape.middle(place))?;
    }
    Ok(stores.made)
}

fn tidy_middle(stores: &mut Stores, middle: u32) -> Result<(), u32> {
    for at in middle..middle + 1024 {
        let entry = stores.pool[at as usize];
        if leads(entry) {
            if let Some(rights) = page_target(stores.pool, entry, 0, Paint::NOTHING) {
                stores.put(at, rights)?;
            }
        }
    }
    Ok(())
}
