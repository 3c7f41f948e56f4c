//! Requests: addresses and lengths that crowd at a few edges, so that changes meet each other's tables.

use crate::rng::Rng;
use model::change::Request;

const BLOCKS: [u32; 6] = [0, 0, 1, 2, 7, 1023];
const PAGES: [u32; 8] = [0, 0, 1, 2, 127, 128, 129, 1023];
const OFFSETS: [u32; 12] = [0, 0, 4, 8, 60, 64, 504, 508, 512, 2048, 4088, 4092];
const LENGTHS: [u32; 24] = [
    1,
    4,
    4,
    5,
    8,
    60,
    64,
    508,
    512,
    512,
    516,
    4092,
    4096,
    4096,
    4100,
    8192,
    524_284,
    524_288,
    524_292,
    4_194_300,
    4_194_304,
    4_194_308,
    8_388_608,
    1 << 30,
];

/// A number, or as often one of the next three.
fn nudged(rng: &mut Rng, number: u32) -> u32 {
    if rng.once_in(2) {
        number + rng.below(4)
    } else {
        number
    }
}

/// A byte address near one of a few edges, or any.
pub fn address(rng: &mut Rng) -> u32 {
    if rng.once_in(24) {
        return rng.word();
    }
    let block = if rng.once_in(12) { rng.below(1024) } else { rng.pick(&BLOCKS) };
    let page = if rng.once_in(6) { rng.below(1024) } else { rng.pick(&PAGES) };
    let edge = rng.pick(&OFFSETS);
    let offset = if rng.once_in(4) { rng.below(4096) } else { nudged(rng, edge) };
    (block << 22) + (page << 12) + offset
}

fn length(rng: &mut Rng, start: u32) -> u32 {
    match rng.below(40) {
        0 => rng.word(),
        1 => 0u32.wrapping_sub(start),
        2 => 0u32.wrapping_sub(start).wrapping_add(1),
        3 => 0xFFFF_FFFF,
        4 => rng.below(1 << 24),
        5..=9 => rng.below(8192),
        _ => {
            let length = rng.pick(&LENGTHS);
            nudged(rng, length)
        }
    }
}

/// A request that is mostly in order up to refusal 5.
pub fn any(rng: &mut Rng, domains: u32) -> Request {
    let start = address(rng);
    let mut request = Request { domain: rng.below(domains), start, length: length(rng, start), right: rng.below(4) };
    match rng.below(60) {
        0 => request.domain = domains,
        1 => request.domain = rng.word(),
        2 => request.right = 4,
        3 => request.right = rng.word(),
        4 => request.length = 0,
        _ => {}
    }
    request
}

/// A request that clears room: a whole block or more to one right.
pub fn clearing(rng: &mut Rng, domains: u32) -> Request {
    let block = rng.pick(&BLOCKS);
    let (start, length) = match rng.below(4) {
        0 => (0, 0xFFFF_FFFF),
        1 => (block << 22, 1 << 22),
        2 => (block << 22 | rng.pick(&PAGES) << 12, 4096),
        _ => (block << 22 | 1 << 21, 1 << 21),
    };
    Request { domain: rng.below(domains), start, length, right: rng.below(2) }
}

/// A request like the last one with its edges moved, mostly by whole lines, sub-blocks or pages. It makes tables and
/// gives up tables in one change, and has cuts at which a table is not wanted.
pub fn moved(rng: &mut Rng, domains: u32, last: Request) -> Request {
    const MOVES: [u32; 11] = [0, 0, 1, 4, 64, 256, 512, 4096, 4096, 1 << 19, 1 << 22];
    let by = rng.pick(&MOVES);
    let start = if rng.once_in(2) { last.start.saturating_sub(by) } else { last.start.saturating_add(by) };
    let by = rng.pick(&MOVES);
    let length = if rng.once_in(2) { last.length.saturating_sub(by) } else { last.length.saturating_add(by) };
    let right = if rng.once_in(3) { rng.below(4) } else { last.right };
    let domain = if rng.once_in(3) { rng.below(domains) } else { last.domain };
    Request { domain, start, length, right }
}

/// A request within the first pages of one block, where changes cost few stores and each meets the tables of others.
pub fn near(rng: &mut Rng, domains: u32) -> Request {
    let unit = rng.pick(&[4, 64, 256, 512, 4096]);
    let start = rng.below(3 * 4096 / unit) * unit;
    let length = (1 + rng.below(6)) * rng.pick(&[4, 64, 128, 512, 1024, 4096]);
    let (start, length) = (nudged(rng, start), nudged(rng, length));
    Request { domain: rng.below(domains), start, length, right: rng.below(3) }
}
