//! Changes: refusals, then stores in three phases. Entries give tables up before their places are filled again, and
//! lead to new tables only once these are filled, so that a cut anywhere leaves a sound pool.

use crate::entries::{eight, leads, right_at, sixteen, Paint, Region};
use crate::plan::{Edge, Plan};
use crate::regions::{self, allows};
use crate::shape::Shape;
use crate::sound::used_places;
use crate::target::is_settled;
use crate::CUT;

#[derive(Clone, Copy)]
pub struct Request {
    pub domain: u32,
    pub start: u32,
    pub length: u32,
    pub right: u32,
}

/// A phase of the stores: entries that lead no more; words of new tables; the other words of kept tables.
#[derive(Clone, Copy, Debug, PartialEq, Eq)]
pub enum Phase {
    Give,
    Fill,
    Link,
}

pub const SAFE_ORDER: [Phase; 3] = [Phase::Give, Phase::Fill, Phase::Link];

/// Single stores under an allowance.
pub struct Stores<'a> {
    pub pool: &'a mut [u32],
    pub allowance: u32,
    pub made: u32,
}

impl Stores<'_> {
    /// Stores a word that differs; an error where the allowance is used up.
    #[inline]
    pub fn put(&mut self, at: u32, value: u32) -> Result<(), u32> {
        let word = &mut self.pool[at as usize];
        if *word == value {
            return Ok(());
        }
        if self.made == self.allowance {
            return Err(CUT);
        }
        *word = value;
        self.made += 1;
        Ok(())
    }

    fn word(&self, at: u32) -> u32 {
        self.pool[at as usize]
    }
}

/// Refusals 2 to 8, or cut; the shape fits. Gives the number of stores.
pub fn change(pool: &mut [u32], shape: Shape, request: Request, allowance: u32, order: [Phase; 3]) -> Result<u32, u32> {
    let region = region(shape, request)?;
    changed(pool, shape, request, region, allowance, order)
}

/// Refusals 18, 2 to 5, 19, 6 to 8, or cut; the shape fits. Gives the number of stores.
pub fn change_by(
    pool: &mut [u32],
    shape: Shape,
    regions: &[u32; 321],
    caller: u32,
    request: Request,
    allowance: u32,
) -> Result<u32, u32> {
    if regions[regions::COUNT] > 64 {
        return Err(18);
    }
    if caller >= shape.d {
        return Err(2);
    }
    let region = region(shape, request)?;
    if !allows(regions, caller, &request, region) {
        return Err(19);
    }
    changed(pool, shape, request, region, allowance, SAFE_ORDER)
}

/// Refusals 2 to 5; else the rounded region.
fn region(shape: Shape, request: Request) -> Result<Region, u32> {
    if request.domain >= shape.d {
        return Err(2);
    }
    if request.right > 3 {
        return Err(3);
    }
    Region::rounded(request.start, request.length)
}

/// Refusals 6 to 8, or cut.
fn changed(
    pool: &mut [u32],
    shape: Shape,
    request: Request,
    region: Region,
    allowance: u32,
    order: [Phase; 3],
) -> Result<u32, u32> {
    let paint = Paint { region, right: request.right };
    let used = used_places(pool, shape)?;
    if !is_settled(pool, shape) {
        return Err(7);
    }
    let plan = Plan::new(pool, shape, used, request.domain, paint)?;
    let mut stores = Stores { pool, allowance, made: 0 };
    for phase in order {
        match phase {
            Phase::Give => give(&mut stores, &plan)?,
            Phase::Fill => fill(&mut stores, &plan)?,
            Phase::Link => link(&mut stores, &plan)?,
        }
    }
    Ok(stores.made)
}

/// Edges in order of where their tables stand, so that stores go by word number.
fn by_place(edges: &[Edge], which: impl Fn(&Edge) -> bool) -> impl Iterator<Item = Edge> {
    let first = edges.first().copied();
    let second = edges.get(1).copied();
    let pair = match (first, second) {
        (Some(a), Some(b)) if b.last < a.last => [second, first],
        _ => [first, second],
    };
    pair.into_iter().flatten().filter(move |edge| which(edge))
}

fn give(stores: &mut Stores, plan: &Plan) -> Result<(), u32> {
    for block in plan.block_range() {
        let entry = plan.root_entry(block);
        if leads(stores.word(plan.root + block)) && !leads(entry) {
            stores.put(plan.root + block, entry)?;
        }
    }
    for block in by_place(plan.blocks(), Edge::has_kept_table) {
        for page in plan.page_range(block.number) {
            let (at, entry) = (block.last + (page & 1023), plan.page_entry(page));
            if leads(stores.word(at)) && !leads(entry) {
                stores.put(at, entry)?;
            }
        }
    }
    Ok(())
}

fn fill(stores: &mut Stores, plan: &Plan) -> Result<(), u32> {
    for block in by_place(plan.blocks(), Edge::has_new_table) {
        fill_middle(stores, plan, block)?;
    }
    for page in by_place(plan.pages(), Edge::has_new_table) {
        for i in 0..64 {
            let said = sixteen(right_at(page.old, i / 8));
            let start = (page.number << 10) + 16 * i;
            stores.put(page.last + i, plan.paint.leaf_entry(said, start))?;
        }
    }
    Ok(())
}

fn fill_middle(stores: &mut Stores, plan: &Plan, block: Edge) -> Result<(), u32> {
    let covered = plan.page_range(block.number);
    for j in 0..1024 {
        let page = (block.number << 10) + j;
        let entry = if covered.contains(&page) { plan.page_entry(page) } else { eight(right_at(block.old, j / 128)) };
        stores.put(block.last + j, entry)?;
    }
    Ok(())
}

fn link(stores: &mut Stores, plan: &Plan) -> Result<(), u32> {
    for block in plan.block_range() {
        stores.put(plan.root + block, plan.root_entry(block))?;
    }
    for block in by_place(plan.blocks(), Edge::has_kept_table) {
        for page in plan.page_range(block.number) {
            stores.put(block.last + (page & 1023), plan.page_entry(page))?;
        }
    }
    for page in by_place(plan.pages(), Edge::has_kept_table) {
        for i in 0..64 {
            let start = (page.number << 10) + 16 * i;
            let entry = plan.paint.leaf_entry(stores.word(page.last + i), start);
            stores.put(page.last + i, entry)?;
        }
    }
    Ok(())
}
