//! The calls that are watched: changes and tidyings of small and full pools, changes by callers, and refusals.

use crate::call::{Asked, Work};
use crate::run::Run;
use comparison::given::{pools, requests};
use comparison::rng::Rng;
use comparison::Difference;
use model::change::Request;
use model::regions::REGIONS_WORDS;
use model::shape::{Shape, LEAF};
use model::walk::read;

const LARGEST: Shape = Shape::new(4, 8, 64);

fn change(domain: u32, start: u32, length: u32, right: u32) -> Work {
    Work::Change(Request { domain, start, length, right })
}

/// A series of calls from a fresh pool.
fn series(run: &mut Run, shape: Shape, works: &[Work]) -> Result<(), Difference> {
    let mut pool = shape.fresh();
    works.iter().try_for_each(|work| run.make(&mut pool, shape, *work))
}

/// Changes in pools with few places: the paper's examples, and tables that come, go and move.
pub fn small_pools(run: &mut Run, _: usize) -> Result<(), Difference> {
    let set = |start, length, right| change(0, start, length, right);
    series(run, Shape::new(1, 1, 1), &[set(0x1000, 64, 2), set(0x1000, 64, 2), set(0x1000, 64, 0)])?;
    series(run, Shape::new(1, 1, 0), &[set(0x1000, 512, 2)])?;
    series(run, Shape::new(1, 0, 0), &[set(0, 524_288, 1), set(0, 524_284, 1), set(0, 0x4000_0000, 3)])?;
    // A sub-block becomes equal before another is divided; a leaf, and a middle table, move to another block.
    let shape = Shape::new(1, 2, 3);
    series(run, shape, &[set(0x100, 0x100, 1), set(0, 0x300, 1)])?;
    series(run, shape, &[set(0x1000, 64, 2), set(0, 0x8_0040, 0)])?;
    series(run, Shape::new(1, 1, 1), &[set(0x3F_F000, 64, 2), set(0, 0x40_0040, 1), set(0, 0x8000_0000, 0)])
}

/// Changes that meet each other's tables, in pools with few places; at last a domain is cleared.
pub fn near_changes(run: &mut Run, turns: usize) -> Result<(), Difference> {
    for _ in 0..turns {
        for (shape, length) in [(Shape::new(1, 1, 1), 4), (Shape::new(2, 2, 4), 8)] {
            let near = |_| Work::Change(requests::near(&mut run.rng, shape.domains));
            let mut works: Vec<Work> = (0..length).map(near).collect();
            works.push(change(0, 0, 1 << 22, 0));
            series(run, shape, &works)?;
        }
    }
    Ok(())
}

/// Changes of the largest pool with every place in use.
pub fn full_pools(run: &mut Run, turns: usize) -> Result<(), Difference> {
    for _ in 0..turns {
        let pool = full(&mut run.rng);
        for work in in_full(&mut run.rng, &pool) {
            run.watch(&pool, LARGEST, work)?;
        }
    }
    Ok(())
}

/// A settled pool of the largest shape in which no place is free.
fn full(rng: &mut Rng) -> Vec<u32> {
    loop {
        let pool = pools::crowded(rng, LARGEST);
        let state = read(&pool, LARGEST).expect("a crowded pool is sound");
        if state.is_settled() {
            return pool;
        }
    }
}

/// Changes at a leaf of a full pool: a word of it; the leaf given up; given up and its place taken by the next page;
/// and its block and its domain given one right. And one for which there is no room.
fn in_full(rng: &mut Rng, pool: &[u32]) -> Vec<Work> {
    let state = read(pool, LARGEST).expect("a full pool is sound");
    let leaf = state.leaves[rng.index(LEAF)].expect("a full pool has no free place");
    let page = 4096 * leaf.number;
    let domain = leaf.domain as u32;
    let right = 1 + rng.below(3);
    vec![
        change(domain, page + 4 * rng.below(1024), 4, right),
        change(domain, page, 4096, right),
        change(domain, page, 4096 + 4, right),
        change(domain, page & !0x3F_FFFF, 1 << 22, right),
        change(domain, page ^ 0x8000_0000, 4, right),
    ]
}

/// Tidyings of sound pools, of which many hold tables that are not wanted.
pub fn tidyings(run: &mut Run, turns: usize) -> Result<(), Difference> {
    for turn in 0..turns {
        let shapes = [Shape::new(1, 1, 1), Shape::new(1, 0, 0), Shape::new(2, 3, 6), LARGEST];
        let shape = shapes[turn % shapes.len()];
        let mut pool = pools::sound(&mut run.rng, shape);
        run.make(&mut pool, shape, Work::Tidying)?;
    }
    let shape = Shape::new(1, 1, 6);
    run.watch(&unsettled(shape), shape, Work::Tidying)?;
    run.watch(&with_leaves_unwanted(shape), shape, Work::Tidying)?;
    let mut pool = full(&mut run.rng);
    pool[LARGEST.leaf(0)..LARGEST.leaf(40)].fill(0);
    run.make(&mut pool, LARGEST, Work::Tidying)?;
    run.make(&mut pool, LARGEST, Work::Tidying)
}

/// A pool with a middle table that is wanted and leaves that are not.
fn with_leaves_unwanted(shape: Shape) -> Vec<u32> {
    let mut pool = unsettled(shape);
    let pages = shape.middle(0);
    pool[pages + 100] = 0x8000_0001;
    for place in 0..shape.leaves as usize {
        pool[pages + place] = shape.leaf(place) as u32;
    }
    pool
}

/// Refusals of every number that a change and a tidying have.
pub fn refusals(run: &mut Run, turns: usize) -> Result<(), Difference> {
    for _ in 0..turns {
        for shape in [Shape::new(1, 1, 1), LARGEST] {
            refused(run, shape)?;
        }
    }
    Ok(())
}

fn refused(run: &mut Run, shape: Shape) -> Result<(), Difference> {
    let fresh = shape.fresh();
    let other = Shape::new(shape.domains, shape.middles, 65);
    let fine = change(0, 0x1000, 64, 2);
    for work in [fine, Work::Tidying] {
        run.watch(&fresh, other, work)?;
        let pool = unsound(&mut run.rng, shape);
        run.watch(&pool, shape, work)?;
    }
    let region = |start, length, right| change(0, start, length, right);
    let requests = [change(shape.domains, 0, 4, 1), region(0, 4, 4), region(0, 0, 1), region(0xFFFF_FFFC, 5, 1)];
    for work in requests {
        run.watch(&fresh, shape, work)?;
    }
    run.watch(&unsettled(shape), shape, fine)?;
    let alone = Shape::new(shape.domains, 1, 1);
    run.watch(&alone.fresh(), alone, region(0x3F_FFFC, 8, 1))
}

fn unsound(rng: &mut Rng, shape: Shape) -> Vec<u32> {
    loop {
        let mut pool = pools::sound(rng, shape);
        pools::damage(rng, &mut pool, shape);
        if read(&pool, shape).is_none() {
            return pool;
        }
    }
}

/// A pool with a middle table that says nothing that its root word could not say.
fn unsettled(shape: Shape) -> Vec<u32> {
    let mut pool = shape.fresh();
    pool[shape.middle(0)..shape.middle(1)].fill(0x8000_0000);
    pool[0] = shape.middle(0) as u32;
    pool
}

/// A buffer of domain 1, from byte 0x1000 on, in two regions: domain 2 has an export of read in the first of them. Then
/// a region of domain 2.
static REGIONS: [u32; REGIONS_WORDS] =
    list([[1, 0x400, 0x410, 0b100, 0b01_0000], [1, 0x410, 0x420, 0, 0], [2, 0x500, 0x520, 0, 0]], 3);
/// A list that holds more regions than there are.
static TOO_MANY: [u32; REGIONS_WORDS] = list([], 65);

const fn list<const N: usize>(held: [[u32; 5]; N], count: u32) -> [u32; REGIONS_WORDS] {
    let mut words = [0; REGIONS_WORDS];
    let mut at = 0;
    while at < 5 * N {
        words[at] = held[at / 5][at % 5];
        at += 1;
    }
    words[REGIONS_WORDS - 1] = count;
    words
}

fn by(caller: u32, domain: u32, start: u32, length: u32, right: u32) -> Work {
    Work::ChangeBy(Asked { caller, request: Request { domain, start, length, right }, regions: &REGIONS })
}

/// Changes that the regions let a caller make, one after the other, and after each of them ones that they do not.
pub fn callers(run: &mut Run, _: usize) -> Result<(), Difference> {
    let shape = Shape::new(3, 2, 2);
    let allowed = [
        by(1, 0, 0x1000, 0x80, 2),
        by(2, 0, 0x1000, 0x40, 1),
        by(0, 0, 0x1080, 0x40, 1),
        by(1, 0, 0x103F, 2, 3),
        by(1, 0, 0x1000, 0x80, 0),
        by(0, 0, 0x1080, 0x380, 0),
    ];
    let mut pool = shape.fresh();
    for work in allowed {
        run.make(&mut pool, shape, work)?;
        // Beyond the last word, before the first, between the ends; more than the export, and for the exporter itself.
        let refused = [
            by(1, 0, 0x1000, 0x81, 1),
            by(1, 2, 0xFFF, 0x81, 1),
            by(0, 1, 0xF00, 0x200, 3),
            by(2, 1, 0x1000, 4, 2),
            by(2, 2, 0x1000, 4, 1),
        ];
        refused.iter().try_for_each(|work| run.watch(&pool, shape, *work))?;
    }
    refused_callers(run, shape)
}

/// The other refusals of a change by a caller.
fn refused_callers(run: &mut Run, shape: Shape) -> Result<(), Difference> {
    let fresh = shape.fresh();
    let fine = by(1, 2, 0x1000, 0x40, 2);
    run.watch(&fresh, Shape::new(3, 2, 3), fine)?;
    let request = Request { domain: 0, start: 0, length: 4, right: 1 };
    run.watch(&fresh, shape, Work::ChangeBy(Asked { caller: 0, request, regions: &TOO_MANY }))?;
    let requests =
        [by(3, 0, 0, 4, 1), by(0, 3, 0, 4, 1), by(0, 0, 0, 4, 4), by(0, 0, 0, 0, 1), by(0, 0, 2, u32::MAX, 1)];
    requests.iter().try_for_each(|work| run.watch(&fresh, shape, *work))?;
    let pool = unsound(&mut run.rng, shape);
    run.watch(&pool, shape, fine)?;
    run.watch(&unsettled(shape), shape, fine)?;
    let alone = Shape::new(3, 0, 0);
    run.watch(&alone.fresh(), alone, fine)
}
