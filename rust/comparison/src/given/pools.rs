//! Pools: sound ones that are often not settled, damaged ones, and random words.

use crate::rng::Rng;
use model::shape::{Shape, LEAF, TABLE};

/// Eight rights: equal ones, one of them another, or any.
fn eight(rng: &mut Rng, usual: u32) -> u32 {
    let same = 0x8000_0000 | (usual * 0x5555);
    match rng.below(400) {
        0 => 0x8000_0000 | rng.below(1 << 16),
        1 => same ^ 1 << rng.below(16),
        _ => same,
    }
}

/// A leaf's words: all but one word alike, or any; where the leaf need not be wanted, one right for all or for each
/// sub-block too.
fn fill_leaf(rng: &mut Rng, words: &mut [u32], wanted: bool) {
    let usual = rng.below(4) * 0x5555_5555;
    match if wanted { 2 + rng.below(2) } else { rng.below(4) } {
        0 => words.fill(usual),
        1 => words.chunks_mut(8).for_each(|sub| sub.fill(rng.below(4) * 0x5555_5555)),
        2 => {
            words.fill(usual);
            words[rng.index(LEAF)] ^= 1 << rng.below(32);
        }
        _ => words.iter_mut().for_each(|word| *word = rng.word()),
    }
}

/// Places of a kind in some order, of which a pool links the first few.
fn shuffled(rng: &mut Rng, count: u32) -> Vec<usize> {
    let mut places: Vec<usize> = (0..count as usize).collect();
    for i in (1..places.len()).rev() {
        places.swap(i, rng.index(i + 1));
    }
    let most = places.len() + 1;
    places.truncate(rng.index(most).max(rng.index(most)));
    places
}

/// A sound pool; places out of use hold any words, or rights, which another shape can read. Half of the pools have
/// hardly a table that is not wanted.
pub fn sound(rng: &mut Rng, shape: Shape) -> Vec<u32> {
    let wanted = rng.once_in(2);
    let readable = rng.once_in(2);
    let usual = rng.below(4);
    let idle = |rng: &mut Rng| if readable { eight(rng, usual) } else { rng.word() };
    let mut pool: Vec<u32> = (0..shape.length()).map(|_| idle(rng)).collect();
    for word in &mut pool[..shape.middle(0)] {
        *word = eight(rng, usual);
    }
    let middles = shuffled(rng, shape.middles);
    for &place in &middles {
        let usual = rng.below(4);
        for word in &mut pool[shape.middle(place)..shape.middle(place) + TABLE] {
            *word = eight(rng, usual);
        }
        if wanted || rng.once_in(2) {
            pool[shape.middle(place) + rng.index(TABLE)] ^= 1 << rng.below(16);
        }
        link(rng, &mut pool, 0..shape.middle(0), shape.middle(place));
    }
    if middles.is_empty() {
        return pool;
    }
    for place in shuffled(rng, shape.leaves) {
        fill_leaf(rng, &mut pool[shape.leaf(place)..shape.leaf(place) + LEAF], wanted);
        let parent = shape.middle(rng.pick(&middles));
        link(rng, &mut pool, parent..parent + TABLE, shape.leaf(place));
    }
    pool
}

/// A sound pool with every place in use and any words in the leaves: as many runs as there can be, or near to it.
pub fn crowded(rng: &mut Rng, shape: Shape) -> Vec<u32> {
    let mut pool = shape.fresh();
    for place in 0..shape.middles as usize {
        pool[shape.middle(place)..shape.middle(place) + TABLE].fill(0x8000_0000);
        link(rng, &mut pool, 0..shape.middle(0), shape.middle(place));
    }
    for place in 0..shape.leaves as usize {
        pool[shape.leaf(place)..shape.leaf(place) + LEAF].fill_with(|| rng.word());
        let parent = shape.middle(rng.index(shape.middles as usize));
        link(rng, &mut pool, parent..parent + TABLE, shape.leaf(place));
    }
    pool
}

/// Makes an entry lead to a table, one that does not lead yet.
fn link(rng: &mut Rng, pool: &mut [u32], entries: std::ops::Range<usize>, table: usize) {
    loop {
        let near = rng.pick(&[1, 4, entries.len()]);
        let at = entries.start + rng.index(near.min(entries.len()));
        if pool[at] >= 0x8000_0000 {
            pool[at] = table as u32;
            return;
        }
    }
}

/// An entry that is wrong somewhere, or wrong where it comes to stand.
fn bad_entry(rng: &mut Rng, shape: Shape) -> u32 {
    let place = rng.index(9);
    match rng.below(12) {
        0 => 0,
        1 => rng.word(),
        2 => 0x8000_0000 | 1 << (16 + rng.below(15)),
        3 => 0xFFFF_FFFF,
        4 => 0x7FFF_FFFF,
        5 => shape.root(place.min(3)) as u32,
        6 => shape.middle(place) as u32,
        7 => shape.leaf(rng.index(66)) as u32,
        8 => (shape.middle(place) as u32).wrapping_add(rng.pick(&[1, u32::MAX, 64, 512])),
        9 => (shape.leaf(rng.index(65)) as u32).wrapping_add(rng.pick(&[1, u32::MAX, 32])),
        10 => shape.length() as u32,
        _ => 0x8000_0000 | rng.below(1 << 16),
    }
}

/// Puts bad entries into a few words that a walk meets: roots, middle places, or a word that leads to a table.
pub fn damage(rng: &mut Rng, pool: &mut [u32], shape: Shape) {
    for _ in 0..1 + rng.below(3) {
        let tables = shape.leaf(0);
        let leading: Vec<usize> = (0..tables).filter(|at| pool[*at] < 0x8000_0000).collect();
        let at = match rng.below(3) {
            0 if !leading.is_empty() => rng.pick(&leading),
            1 => rng.pick(&[0, 1, 7, 1023]),
            _ => rng.index(tables),
        };
        pool[at] = bad_entry(rng, shape);
    }
}

/// Words without any order, or with order in most of them.
pub fn random(rng: &mut Rng, shape: Shape) -> Vec<u32> {
    let wild = rng.pick(&[1, 2, 40, 4000]);
    let usual = rng.below(4);
    let words = (0..shape.length()).map(|_| if rng.once_in(wild) { bad_entry(rng, shape) } else { eight(rng, usual) });
    words.collect()
}
