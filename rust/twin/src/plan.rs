//! The plan of a change: what its edge blocks and pages come to, and where their tables stand. All blocks and pages
//! between the edges are wholly covered and come to eight equal rights.

use crate::entries::{eight, leads, right_at, Paint};
use crate::shape::{table, Shape};
use crate::sound::Used;
use crate::target::{block_target, page_target};

/// A block or page at the region's edge: its number, its entry before, and its entry when all is done.
#[derive(Clone, Copy)]
pub struct Edge {
    pub number: u32,
    pub old: u32,
    pub last: u32,
}

impl Edge {
    pub fn has_new_table(&self) -> bool {
        leads(self.last) && !leads(self.old)
    }

    pub fn has_kept_table(&self) -> bool {
        leads(self.last) && leads(self.old)
    }
}

/// What the words of a wanted table hold until a place is found for it.
const WANTED: u32 = u32::MAX;

pub struct Plan {
    pub root: u32,
    pub paint: Paint,
    blocks: [Edge; 2],
    pages: [Edge; 2],
}

impl Plan {
    /// The plan of a change of a settled pool; refusal 8.
    pub fn new(pool: &[u32], shape: Shape, used: Used, domain: u32, paint: Paint) -> Result<Plan, u32> {
        let root = 1024 * domain;
        let (first, last) = (paint.region.lo, paint.region.hi - 1);
        let block = |number: u32| edge_block(pool, pool[(root + number) as usize], number, paint);
        let blocks = [block(first >> 20), block(last >> 20)];
        let page = |number: u32, block: Edge| edge_page(pool, block, number, paint);
        let pages = [page(first >> 10, blocks[0]), page(last >> 10, blocks[1])];
        let mut plan = Plan { root, paint, blocks, pages };
        let kept = plan.kept_places(pool, shape, used);
        hand_out(&mut plan.blocks, kept.middles, shape.m, |place| shape.middle(place))?;
        hand_out(&mut plan.pages, kept.leaves, shape.l, |place| shape.leaf(place))?;
        Ok(plan)
    }

    /// The edge blocks, each once.
    pub fn blocks(&self) -> &[Edge] {
        distinct(&self.blocks)
    }

    /// The edge pages, each once.
    pub fn pages(&self) -> &[Edge] {
        distinct(&self.pages)
    }

    /// The covered blocks from first to last.
    pub fn block_range(&self) -> std::ops::RangeInclusive<u32> {
        self.blocks[0].number..=self.blocks[1].number
    }

    /// The covered pages of a block.
    pub fn page_range(&self, block: u32) -> std::ops::RangeInclusive<u32> {
        let first = self.pages[0].number.max(block << 10);
        let last = self.pages[1].number.min((block << 10) + 1023);
        first..=last
    }

    /// What the root entry of a covered block comes to.
    pub fn root_entry(&self, block: u32) -> u32 {
        let edge = self.blocks.iter().find(|edge| edge.number == block);
        edge.map_or(eight(self.paint.right), |edge| edge.last)
    }

    /// What the middle entry of a covered page comes to.
    pub fn page_entry(&self, page: u32) -> u32 {
        let edge = self.pages.iter().find(|edge| edge.number == page);
        edge.map_or(eight(self.paint.right), |edge| edge.last)
    }

    /// The places in use that this change does not give up.
    fn kept_places(&self, pool: &[u32], shape: Shape, used: Used) -> Used {
        let mut kept = used;
        for number in self.block_range() {
            let entry = pool[(self.root + number) as usize];
            if !leads(entry) {
                continue;
            }
            let pages = if leads(self.root_entry(number)) {
                self.page_range(number)
            } else {
                kept.middles &= !bit(shape.middle_place(entry));
                number << 10..=(number << 10) + 1023
            };
            let entries = table(pool, entry);
            for page in pages {
                let entry = entries[(page & 1023) as usize];
                let stays = leads(self.root_entry(number)) && leads(self.page_entry(page));
                if leads(entry) && !stays {
                    kept.leaves &= !bit(shape.leaf_place(entry));
                }
            }
        }
        kept
    }
}

fn bit(place: Option<u32>) -> u64 {
    place.map_or(0, |place| 1 << place)
}

fn distinct(edges: &[Edge; 2]) -> &[Edge] {
    let count = if edges[0].number == edges[1].number { 1 } else { 2 };
    &edges[..count]
}

fn edge_block(pool: &[u32], old: u32, number: u32, paint: Paint) -> Edge {
    Edge { number, old, last: wanted(block_target(pool, old, number, paint), old) }
}

/// An edge page. In a block that keeps no table it has no entry of its own, and none is wanted.
fn edge_page(pool: &[u32], block: Edge, number: u32, paint: Paint) -> Edge {
    let old = if leads(block.old) {
        table(pool, block.old)[(number & 1023) as usize]
    } else {
        eight(right_at(block.old, (number & 1023) / 128))
    };
    Edge { number, old, last: wanted(page_target(pool, old, number, paint), old) }
}

/// The target's entry; where a table is wanted, the pointer to the old one or a mark for a new one.
fn wanted(target: Option<u32>, old: u32) -> u32 {
    target.unwrap_or(if leads(old) { old } else { WANTED })
}

/// Gives each new table, in order, the lowest place that no kept table occupies.
fn hand_out(edges: &mut [Edge; 2], kept: u64, places: u32, at: impl Fn(u32) -> u32) -> Result<(), u32> {
    let mut taken = kept;
    let count = distinct(edges).len();
    for edge in edges[..count].iter_mut().filter(|edge| edge.last == WANTED) {
        let place = taken.trailing_ones();
        if place >= places {
            return Err(8);
        }
        taken |= 1 << place;
        edge.last = at(place);
    }
    if count == 1 {
        edges[1] = edges[0];
    }
    Ok(())
}
