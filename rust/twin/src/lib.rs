//! The library's functions written in plain Rust, as a competent programmer would: the same checks in the same order,
//! on the words in place, and stores in the same three phases. The benchmark runs it beside the proved library.
//!
//! The functions here have the C interface's parameters and numbers, with slices for pointers and lengths. None is
//! inlined into its caller, since none of the library is.
#![forbid(unsafe_code)]

mod buffer;
mod change;
mod entries;
mod gates;
mod listing;
mod lookup;
mod plan;
mod regions;
mod shape;
mod sound;
mod step;
mod target;
mod tidy;

pub use change::{Phase, SAFE_ORDER};

use change::Request;
use regions::Asked;
use shape::Shape;

/// A change or tidying was cut.
pub const CUT: u32 = 100;
/// A lent shape or state has the wrong length.
pub const LENGTH: u32 = 101;

/// Writes as many results as fit, zeros for a refusal, and gives the number.
fn deliver<const N: usize>(out: &mut [u32], answer: Result<[u32; N], u32>) -> u32 {
    let results = answer.unwrap_or([0; N]);
    for (word, result) in out.iter_mut().zip(results) {
        *word = result;
    }
    answer.err().unwrap_or(0)
}

/// The number of an answer without results.
fn number(answer: Result<(), u32>) -> u32 {
    answer.err().unwrap_or(0)
}

#[inline(never)]
pub fn fresh(pool: &mut [u32], shape: &[u32]) -> u32 {
    match Shape::fitting(pool, shape) {
        Ok(shape) => {
            let (roots, places) = pool.split_at_mut(shape.first_middle());
            roots.fill(0x8000_0000);
            places.fill(0);
            0
        }
        Err(refusal) => refusal,
    }
}

#[inline(never)]
#[allow(clippy::too_many_arguments)]
pub fn change(
    pool: &mut [u32],
    shape: &[u32],
    domain: u32,
    start: u32,
    length: u32,
    right: u32,
    allowance: u32,
    out: &mut [u32],
) -> u32 {
    change_ordered(pool, shape, domain, start, length, right, allowance, out, SAFE_ORDER)
}

/// [`change`] with its phases in any order, so that tests can see what an unsafe order does. With enough allowance it
/// ends in the same pool.
#[inline(never)]
#[allow(clippy::too_many_arguments)]
pub fn change_ordered(
    pool: &mut [u32],
    shape: &[u32],
    domain: u32,
    start: u32,
    length: u32,
    right: u32,
    allowance: u32,
    out: &mut [u32],
    order: [Phase; 3],
) -> u32 {
    let request = Request { domain, start, length, right };
    let answer = Shape::fitting(pool, shape)
        .and_then(|shape| change::change(pool, shape, request, allowance, order))
        .map(|stores| [stores]);
    deliver(out, answer)
}

/// A change by a caller, of whom the regions say what it may.
#[inline(never)]
#[allow(clippy::too_many_arguments)]
pub fn change_by(
    pool: &mut [u32],
    shape: &[u32],
    regions: &[u32],
    caller: u32,
    domain: u32,
    start: u32,
    length: u32,
    right: u32,
    allowance: u32,
    out: &mut [u32],
) -> u32 {
    let request = Request { domain, start, length, right };
    let answer = match regions.try_into() {
        Ok(regions) => Shape::fitting(pool, shape)
            .and_then(|shape| change::change_by(pool, shape, regions, caller, request, allowance)),
        Err(_) => Err(LENGTH),
    };
    deliver(out, answer.map(|stores| [stores]))
}

#[inline(never)]
pub fn tidy(pool: &mut [u32], shape: &[u32], allowance: u32, out: &mut [u32]) -> u32 {
    let answer = Shape::fitting(pool, shape).and_then(|shape| tidy::tidy(pool, shape, allowance));
    deliver(out, answer.map(|stores| [stores]))
}

#[inline(never)]
pub fn lookup(pool: &[u32], shape: &[u32], domain: u32, address: u32, out: &mut [u32]) -> u32 {
    let answer = Shape::fitting(pool, shape).and_then(|shape| lookup::reaching(pool, shape, domain, address));
    deliver(out, answer)
}

#[inline(never)]
#[allow(clippy::too_many_arguments)]
pub fn check(
    pool: &[u32],
    shape: &[u32],
    buffer: &mut [u32],
    domain: u32,
    kind: u32,
    size: u32,
    address: u32,
    out: &mut [u32],
) -> u32 {
    let answer = match buffer.try_into() {
        Ok(buffer) => Shape::fitting(pool, shape)
            .and_then(|shape| buffer::check(pool, shape, buffer, domain, kind, size, address)),
        Err(_) => Err(LENGTH),
    };
    deliver(out, answer.map(|(pass, loads)| [u32::from(pass), loads]))
}

#[inline(never)]
pub fn list(pool: &[u32], shape: &[u32], from: u32, runs: &mut [u32], out: &mut [u32]) -> u32 {
    let answer = Shape::fitting(pool, shape).and_then(|shape| listing::list(pool, shape, from, runs));
    deliver(out, answer.map(|count| [count]))
}

#[inline(never)]
#[allow(clippy::too_many_arguments)]
pub fn step(
    pool: &[u32],
    shape: &[u32],
    gates: &[u32],
    stack: &mut [u32],
    address: u32,
    target: u32,
    out: &mut [u32],
) -> u32 {
    let answer = match (gates.try_into(), stack.try_into()) {
        (Ok(gates), Ok(stack)) => {
            Shape::fitting(pool, shape).and_then(|shape| step::step(pool, shape, gates, stack, address, target))
        }
        _ => Err(LENGTH),
    };
    deliver(out, answer.map(|pass| [u32::from(pass)]))
}

#[inline(never)]
pub fn flush_all(buffer: &mut [u32]) -> u32 {
    buffer.try_into().map_or(LENGTH, |buffer| buffer::flush(buffer, |_| true))
}

#[inline(never)]
pub fn flush_domain(buffer: &mut [u32], domain: u32) -> u32 {
    buffer.try_into().map_or(LENGTH, |buffer| buffer::flush_domain(buffer, domain))
}

#[inline(never)]
pub fn flush_region(buffer: &mut [u32], domain: u32, start: u32, length: u32) -> u32 {
    buffer.try_into().map_or(LENGTH, |buffer| buffer::flush_region(buffer, domain, start, length))
}

#[inline(never)]
pub fn set_switch_gate(d: u32, gates: &mut [u32], domain: u32, address: u32, destination: u32) -> u32 {
    gates.try_into().map_or(LENGTH, |gates| gates::set(d, gates, domain, address, Some(destination)))
}

#[inline(never)]
pub fn set_return_gate(d: u32, gates: &mut [u32], domain: u32, address: u32) -> u32 {
    gates.try_into().map_or(LENGTH, |gates| gates::set(d, gates, domain, address, None))
}

#[inline(never)]
pub fn remove_gate(d: u32, gates: &mut [u32], domain: u32, address: u32) -> u32 {
    gates.try_into().map_or(LENGTH, |gates| gates::remove(d, gates, domain, address))
}

#[inline(never)]
pub fn make_region(d: u32, regions: &mut [u32], caller: u32, owner: u32, start: u32, length: u32) -> u32 {
    let asked = Asked { caller, start, length };
    number(regions.try_into().map_or(Err(LENGTH), |regions| regions::make(d, regions, asked, owner)))
}

#[inline(never)]
pub fn pass_region(d: u32, regions: &mut [u32], caller: u32, owner: u32, start: u32, length: u32) -> u32 {
    let asked = Asked { caller, start, length };
    number(regions.try_into().map_or(Err(LENGTH), |regions| regions::pass(d, regions, asked, owner)))
}

#[inline(never)]
pub fn give_export(
    d: u32,
    regions: &mut [u32],
    caller: u32,
    receiver: u32,
    right: u32,
    start: u32,
    length: u32,
) -> u32 {
    let asked = Asked { caller, start, length };
    number(regions.try_into().map_or(Err(LENGTH), |regions| regions::give(d, regions, asked, receiver, right)))
}
