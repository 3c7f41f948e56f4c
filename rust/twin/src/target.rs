//! Targets: the eight rights that say a page or a block once a region is painted, if eight rights can say it.
//! The pool is sound.

use crate::entries::{eight, leads, right_at, sixteen, Cover, Paint};
use crate::shape::{leaf, table, Shape};

const SUB_BLOCK: u32 = 1 << 17;
const SUB_PAGE: u32 = 1 << 7;
const PAGE: u32 = 1 << 10;

/// The entry of a 4 KB page, painted, or nothing where the page wants a leaf.
pub fn page_target(pool: &[u32], entry: u32, page: u32, paint: Paint) -> Option<u32> {
    if leads(entry) {
        leaf_target(leaf(pool, entry), page, paint)
    } else {
        rights_target(entry, page << 10, SUB_PAGE, paint)
    }
}

/// The entry of a 4 MB block, painted, or nothing where the block wants a middle table.
pub fn block_target(pool: &[u32], entry: u32, block: u32, paint: Paint) -> Option<u32> {
    if leads(entry) {
        middle_target(pool, table(pool, entry), block, paint)
    } else {
        rights_target(entry, block << 20, SUB_BLOCK, paint)
    }
}

/// Eight rights, painted: a sub-block that the region meets in part must have the region's right already.
fn rights_target(entry: u32, start: u32, sub: u32, paint: Paint) -> Option<u32> {
    let mut word = 0x8000_0000;
    for i in 0..8 {
        let old = right_at(entry, i);
        let right = match paint.region.cover(start + i * sub, sub) {
            Cover::None => old,
            Cover::All => paint.right,
            Cover::Part if old == paint.right => old,
            Cover::Part => return None,
        };
        word |= right << (2 * i);
    }
    Some(word)
}

fn leaf_target(entries: &[u32], page: u32, paint: Paint) -> Option<u32> {
    let mut word = 0x8000_0000;
    for (i, sub) in entries.chunks_exact(8).enumerate() {
        let start = (page << 10) + i as u32 * SUB_PAGE;
        let right = paint.leaf_entry(sub[0], start) & 3;
        let all = sixteen(right);
        let same = sub.iter().zip((start..).step_by(16)).all(|(entry, at)| paint.leaf_entry(*entry, at) == all);
        if !same {
            return None;
        }
        word |= right << (2 * i);
    }
    Some(word)
}

fn middle_target(pool: &[u32], entries: &[u32], block: u32, paint: Paint) -> Option<u32> {
    let mut word = 0x8000_0000;
    for (i, sub) in entries.chunks_exact(128).enumerate() {
        let first = (block << 10) + i as u32 * 128;
        let said = painted_entry(pool, sub[0], first, paint)?;
        let right = said & 3;
        let all = eight(right);
        let mut pages = sub.iter().zip(first..);
        if !pages.all(|(entry, page)| painted_entry(pool, *entry, page, paint) == Some(all)) {
            return None;
        }
        word |= right << (2 * i);
    }
    Some(word)
}

fn painted_entry(pool: &[u32], entry: u32, page: u32, paint: Paint) -> Option<u32> {
    match paint.region.cover(page << 10, PAGE) {
        Cover::None if !leads(entry) => Some(entry),
        Cover::All => Some(eight(paint.right)),
        _ => page_target(pool, entry, page, paint),
    }
}

/// Whether a sound pool is settled: no table stands where eight rights could say it.
pub fn is_settled(pool: &[u32], shape: Shape) -> bool {
    let roots = &pool[..shape.first_middle()];
    roots.iter().filter(|entry| leads(**entry)).all(|&entry| {
        let wanted = block_target(pool, entry, 0, Paint::NOTHING).is_none();
        let mut leaves = table(pool, entry).iter().filter(|entry| leads(**entry));
        wanted && leaves.all(|&entry| page_target(pool, entry, 0, Paint::NOTHING).is_none())
    })
}
