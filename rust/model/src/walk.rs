//! Walks of a pool's words: one address (lookup), and all of them (which tells whether the pool is sound).

use crate::rights::{Rights, Segment};
use crate::shape::{Shape, LEAF, TABLE};
use crate::state::{Owner, Owners, State, BLOCK, LINE, PAGE};
use crate::Refusal;

/// What a lookup gives; `first` and `last` are bytes, those of the longest stretch of the right around the word inside
/// the block of the entry.
#[derive(Clone, Copy, Debug, PartialEq, Eq)]
pub struct Found {
    pub right: u32,
    pub entry: u32,
    pub loads: u32,
    pub first: u32,
    pub last: u32,
}

/// Bit 31 set and bits 30 to 16 zero: eight rights.
pub fn is_eight_rights(entry: u32) -> bool {
    entry >> 16 == 0x8000
}

/// Refusals 1, 2, and 6 where the walk meets a bad entry.
pub fn lookup(pool: &[u32], shape: Shape, domain: u32, address: u32) -> Result<Found, Refusal> {
    shape.fits(pool)?;
    if domain >= shape.domains {
        return Err(2);
    }
    let word = address / 4;
    let root = pool[shape.root(domain as usize) + (word / BLOCK) as usize];
    if is_eight_rights(root) {
        return Ok(found(root, word, BLOCK, 8, 1));
    }
    let middle_place = shape.middle_at(root).ok_or(6u32)?;
    let middle = pool[shape.middle(middle_place) + (word % BLOCK / PAGE) as usize];
    if is_eight_rights(middle) {
        return Ok(found(middle, word, PAGE, 8, 2));
    }
    let leaf_place = shape.leaf_at(middle).ok_or(6u32)?;
    let leaf = pool[shape.leaf(leaf_place) + (word % PAGE / LINE) as usize];
    Ok(found(leaf, word, LINE, 16, 3))
}

/// What an entry says of a word, where its rights are for `parts` equal parts of a block of `words` words. A stretch
/// grows from the word's own part to both sides, as long as the word beside it lies in the block and has the right.
fn found(entry: u32, word: u32, words: u32, parts: u32, loads: u32) -> Found {
    let part = words / parts;
    let block = word / words * words;
    let right_at = |word: u32| right_of(entry, (word - block) / part);
    let right = right_at(word);
    let mut start = word / part * part;
    let mut end = start + part;
    while start > block && right_at(start - 1) == right {
        start -= part;
    }
    while end < block + words && right_at(end) == right {
        end += part;
    }
    Found { right, entry, loads, first: 4 * start, last: 4 * (end - 1) + 3 }
}

fn right_of(entry: u32, part: u32) -> u32 {
    entry >> (2 * part) & 3
}

/// What a pool of a fitting shape holds, or nothing where it is not sound.
pub fn read(pool: &[u32], shape: Shape) -> Option<State> {
    let mut reader = Reader {
        pool,
        shape,
        middles: vec![None; shape.middles as usize],
        leaves: vec![None; shape.leaves as usize],
        segments: Vec::new(),
    };
    let mut rights = Vec::new();
    for domain in 0..shape.domains as usize {
        reader.segments.clear();
        reader.root(domain)?;
        rights.push(Rights::from_segments(reader.segments.iter().copied()));
    }
    let Reader { middles, leaves, .. } = reader;
    Some(State { shape, rights, middles, leaves, words: pool.to_vec() })
}

struct Reader<'a> {
    pool: &'a [u32],
    shape: Shape,
    middles: Owners,
    leaves: Owners,
    segments: Vec<Segment>,
}

impl Reader<'_> {
    fn root(&mut self, domain: usize) -> Option<()> {
        for number in 0..TABLE as u32 {
            let entry = self.pool[self.shape.root(domain) + number as usize];
            if is_eight_rights(entry) {
                self.push(entry, number * BLOCK, BLOCK / 8, 8);
            } else {
                let place = self.shape.middle_at(entry)?;
                take(&mut self.middles[place], Owner { domain, number })?;
                self.middle(place, domain, number)?;
            }
        }
        Some(())
    }

    fn middle(&mut self, place: usize, domain: usize, block: u32) -> Option<()> {
        for index in 0..TABLE as u32 {
            let entry = self.pool[self.shape.middle(place) + index as usize];
            let number = block * TABLE as u32 + index;
            if is_eight_rights(entry) {
                self.push(entry, number * PAGE, PAGE / 8, 8);
            } else {
                let place = self.shape.leaf_at(entry)?;
                take(&mut self.leaves[place], Owner { domain, number })?;
                self.leaf(place, number);
            }
        }
        Some(())
    }

    fn leaf(&mut self, place: usize, page: u32) {
        for index in 0..LEAF as u32 {
            let entry = self.pool[self.shape.leaf(place) + index as usize];
            self.push(entry, page * PAGE + index * LINE, 1, 16);
        }
    }

    fn push(&mut self, entry: u32, start: u32, part: u32, count: u32) {
        let parts = (0..count).map(|i| Segment { start: start + i * part, right: right_of(entry, i) });
        self.segments.extend(parts);
    }
}

/// No place is reached twice.
fn take(place: &mut Option<Owner>, owner: Owner) -> Option<()> {
    if place.is_some() {
        return None;
    }
    *place = Some(owner);
    Some(())
}
