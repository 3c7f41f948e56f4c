//! Region lists: well kept, overlapping, full, out of order or of any words; and calls that meet their regions.

use super::{requests, states};
use crate::rng::Rng;
use model::change::Request;
use model::regions::{Asked, REGIONS, REGIONS_WORDS};

const COUNT: usize = REGIONS_WORDS - 1;
/// The memory words of a few pages, in which regions crowd.
const AREA: u32 = 3 * 1024;
const MEMORY: u32 = 1 << 30;

/// A region's five words with its owner and exports: mostly domains that there are, and any bits.
fn owned(rng: &mut Rng, domains: u32, lo: u32, hi: u32) -> [u32; 5] {
    let owner = if rng.once_in(20) { rng.pick(&[domains, 15, u32::MAX]) } else { rng.below(domains) };
    let given = match rng.below(4) {
        0 => 0,
        1 => rng.word(),
        _ => rng.below(16),
    };
    let rights = if rng.once_in(4) { 0 } else { rng.word() };
    [owner, lo, hi, given, rights]
}

/// Regions that do not meet, often next to each other, in some order.
fn well_kept(rng: &mut Rng, domains: u32) -> Vec<[u32; 5]> {
    let mut at = 0;
    let mut regions = Vec::new();
    for _ in 0..REGIONS {
        let lo = at + rng.pick(&[0, 0, 0, 1, 2, 16]);
        at = lo + rng.pick(&[1, 1, 2, 3, 4, 16, 17, 64, 128, 1024]);
        regions.push(owned(rng, domains, lo, at));
    }
    for i in (1..regions.len()).rev() {
        regions.swap(i, rng.index(i + 1));
    }
    regions
}

/// A region with ends at a few words, so that regions overlap, and some are the same.
fn crowding(rng: &mut Rng, domains: u32) -> [u32; 5] {
    let unit = rng.pick(&[1, 16, 128, 1024]);
    let lo = rng.below(AREA / unit) * unit;
    let hi = lo + (1 + rng.below(3)) * rng.pick(&[1, 16, 128]);
    owned(rng, domains, lo, hi)
}

/// A region that a list of this library's making does not have: it holds nothing, or ends past the memory.
fn odd(rng: &mut Rng, domains: u32) -> [u32; 5] {
    let at = rng.below(AREA);
    let (lo, hi) = match rng.below(7) {
        0 => (at, at),
        1 => (at + rng.below(64), at),
        2 => (u32::MAX, at),
        3 => (MEMORY + at, u32::MAX),
        4 => (at, u32::MAX),
        5 => (at, MEMORY + 1),
        _ => (MEMORY - 1 - at, MEMORY),
    };
    owned(rng, domains, lo, hi)
}

/// How many regions are held; sometimes more than there are.
fn count(rng: &mut Rng) -> u32 {
    match rng.below(24) {
        0 => 0,
        1 => 65,
        2 => rng.word(),
        3..=6 => 64,
        7..=10 => rng.below(4),
        _ => rng.below(64),
    }
}

/// A list of 321 words: well kept, with regions that overlap or are out of order, or of any words. Those past the count
/// are like the others.
pub fn list(rng: &mut Rng, domains: u32) -> Vec<u32> {
    let mut list: Vec<u32> = match rng.below(8) {
        0 => states::words(rng, COUNT),
        1..=3 => well_kept(rng, domains).concat(),
        4 | 5 => (0..REGIONS).flat_map(|_| crowding(rng, domains)).collect(),
        _ => {
            let one = |rng: &mut Rng| if rng.once_in(3) { odd(rng, domains) } else { crowding(rng, domains) };
            (0..REGIONS).flat_map(|_| one(rng)).collect()
        }
    };
    if rng.once_in(3) {
        let (from, to) = (5 * rng.index(REGIONS), 5 * rng.index(REGIONS));
        list.copy_within(from + 1..from + 3, to + 1);
    }
    list.push(count(rng));
    list
}

/// Owner, first word and the word past the last of a region of a list, mostly a held one.
fn region(rng: &mut Rng, list: &[u32]) -> (u32, u32, u32) {
    let held = list[COUNT].clamp(1, 64);
    let place = if rng.once_in(8) { rng.index(REGIONS) } else { rng.below(held) as usize };
    (list[5 * place], list[5 * place + 1], list[5 * place + 2])
}

/// A word, or one of its neighbours.
fn beside(rng: &mut Rng, word: u32) -> u32 {
    rng.pick(&[word.wrapping_sub(1), word, word.wrapping_add(1)])
}

/// Start and length, in bytes, of words from `lo` up to `hi`, with ends anywhere in the first and the last word.
fn bytes(rng: &mut Rng, lo: u32, hi: u32) -> (u32, u32) {
    let first = 4 * u64::from(lo) + u64::from(rng.below(4));
    let end = 4 * u64::from(hi) - u64::from(rng.below(4));
    let length = end.max(first + 1) - first;
    (first as u32, length.min(u64::from(u32::MAX)) as u32)
}

/// Start and length of a stretch that a region of the list has for its own, or begins or ends near to, or of one from
/// region to region, or of any; and the owner of a region there.
fn stretch(rng: &mut Rng, list: &[u32]) -> (u32, u32, u32) {
    let (owner, lo, hi) = region(rng, list);
    let (_, other_lo, other_hi) = region(rng, list);
    let (lo, hi) = match rng.below(12) {
        0..=3 => (lo, hi),
        4 | 5 => (beside(rng, lo), beside(rng, hi)),
        6 => (lo.min(other_lo), hi.max(other_hi)),
        7 => (lo, lo.saturating_add(1 + rng.below(4))),
        8 => (hi.saturating_sub(1 + rng.below(4)), hi),
        9 => (hi, hi.saturating_add(1 + rng.below(2))),
        10 => (lo.saturating_sub(1 + rng.below(2)), lo),
        _ => (0, 0),
    };
    let (start, length) = if lo < hi && hi <= MEMORY {
        bytes(rng, lo, hi)
    } else {
        let any = requests::any(rng, 1);
        (any.start, any.length)
    };
    (owner, start, if rng.once_in(40) { 0 } else { length })
}

/// A domain, sometimes one that there is not.
pub fn domain(rng: &mut Rng, domains: u32) -> u32 {
    if rng.once_in(24) {
        rng.pick(&[domains, 4, 5, 16, u32::MAX])
    } else {
        rng.below(domains.clamp(1, 4))
    }
}

/// Who calls: domain 0, the owner of a region, or any.
fn caller(rng: &mut Rng, domains: u32, owner: u32) -> u32 {
    match rng.below(8) {
        0 | 1 => 0,
        2 | 3 if owner < domains => owner,
        _ => domain(rng, domains),
    }
}

/// A right, sometimes one that there is not.
pub fn right(rng: &mut Rng) -> u32 {
    if rng.once_in(24) {
        rng.pick(&[4, 5, u32::MAX])
    } else {
        rng.below(4)
    }
}

/// A call on a list, in which D is sometimes out of range.
pub fn asked(rng: &mut Rng, list: &[u32], domains: u32) -> Asked {
    let d = if rng.once_in(24) { rng.pick(&[0, 5, u32::MAX]) } else { domains };
    let (owner, start, length) = stretch(rng, list);
    Asked { d, caller: caller(rng, domains, owner), start, length }
}

/// A change that a caller asks for where the list has regions.
pub fn request(rng: &mut Rng, list: &[u32], domains: u32) -> (u32, Request) {
    let (owner, start, length) = stretch(rng, list);
    let caller = caller(rng, domains, owner);
    (caller, Request { domain: domain(rng, domains), start, length, right: right(rng) })
}
