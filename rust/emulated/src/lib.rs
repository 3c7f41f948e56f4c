//! The library's functions on slices of words, for machines that cannot link it: each call goes to a program that can,
//! under the toolchain's emulator (see `service.c`). For tests; a supervisor links the library.
//!
//! The functions are those of `goleuthan::words`.
#![forbid(unsafe_code)]
#![allow(clippy::too_many_arguments)]

mod service;

use service::{call, Lent};

/// Makes the pool fresh.
pub fn fresh(pool: &mut [u32], shape: &[u32]) -> u32 {
    call(0, &[], [Lent::Out(pool), Lent::NONE, Lent::NONE, Lent::NONE, Lent::In(shape)])
}

/// Gives a domain a right on a region. Result: the number of words written.
pub fn change(
    pool: &mut [u32],
    shape: &[u32],
    domain: u32,
    start: u32,
    length: u32,
    right: u32,
    allowance: u32,
    out: &mut [u32],
) -> u32 {
    let numbers = [domain, start, length, right, allowance];
    call(1, &numbers, [Lent::Out(pool), Lent::NONE, Lent::NONE, Lent::Out(out), Lent::In(shape)])
}

/// Makes a sound pool settled. Result: the number of words written.
pub fn tidy(pool: &mut [u32], shape: &[u32], allowance: u32, out: &mut [u32]) -> u32 {
    call(2, &[allowance], [Lent::Out(pool), Lent::NONE, Lent::NONE, Lent::Out(out), Lent::In(shape)])
}

/// The right of a word. Results: the right, the deciding entry, the loads made, and the first and the last byte of the
/// longest stretch of the right around the word in the entry's block.
pub fn lookup(pool: &[u32], shape: &[u32], domain: u32, address: u32, out: &mut [u32]) -> u32 {
    call(3, &[domain, address], [Lent::In(pool), Lent::NONE, Lent::NONE, Lent::Out(out), Lent::In(shape)])
}

/// Checks an access through a lookaside buffer. Results: 1 for pass or 0 for deny, the loads made.
pub fn check(
    pool: &[u32],
    shape: &[u32],
    buffer: &mut [u32],
    domain: u32,
    kind: u32,
    size: u32,
    address: u32,
    out: &mut [u32],
) -> u32 {
    let numbers = [domain, kind, size, address];
    call(4, &numbers, [Lent::In(pool), Lent::Out(buffer), Lent::NONE, Lent::Out(out), Lent::In(shape)])
}

/// Lists runs of one right from a run number on, four words a run. Result: the number of runs in all.
pub fn list(pool: &[u32], shape: &[u32], from: u32, runs: &mut [u32], out: &mut [u32]) -> u32 {
    call(5, &[from], [Lent::In(pool), Lent::Out(runs), Lent::NONE, Lent::Out(out), Lent::In(shape)])
}

/// One fetch step. Result: 1 for pass, 0 for deny.
pub fn step(
    pool: &[u32],
    shape: &[u32],
    gates: &[u32],
    stack: &mut [u32],
    address: u32,
    target: u32,
    out: &mut [u32],
) -> u32 {
    let numbers = [address, target];
    call(6, &numbers, [Lent::In(pool), Lent::In(gates), Lent::Out(stack), Lent::Out(out), Lent::In(shape)])
}

/// Empties every slot of a buffer.
pub fn flush_all(buffer: &mut [u32]) -> u32 {
    call(7, &[], [Lent::NONE, Lent::Out(buffer), Lent::NONE, Lent::NONE, Lent::NONE])
}

/// Empties the slots of a domain.
pub fn flush_domain(buffer: &mut [u32], domain: u32) -> u32 {
    call(8, &[domain], [Lent::NONE, Lent::Out(buffer), Lent::NONE, Lent::NONE, Lent::NONE])
}

/// Empties the slots of a domain whose block meets a region.
pub fn flush_region(buffer: &mut [u32], domain: u32, start: u32, length: u32) -> u32 {
    call(9, &[domain, start, length], [Lent::NONE, Lent::Out(buffer), Lent::NONE, Lent::NONE, Lent::NONE])
}

/// Sets a switch gate.
pub fn set_switch_gate(d: u32, gates: &mut [u32], domain: u32, address: u32, destination: u32) -> u32 {
    call(10, &[d, domain, address, destination], [Lent::NONE, Lent::Out(gates), Lent::NONE, Lent::NONE, Lent::NONE])
}

/// Sets a return gate.
pub fn set_return_gate(d: u32, gates: &mut [u32], domain: u32, address: u32) -> u32 {
    call(11, &[d, domain, address], [Lent::NONE, Lent::Out(gates), Lent::NONE, Lent::NONE, Lent::NONE])
}

/// Removes a gate.
pub fn remove_gate(d: u32, gates: &mut [u32], domain: u32, address: u32) -> u32 {
    call(12, &[d, domain, address], [Lent::NONE, Lent::Out(gates), Lent::NONE, Lent::NONE, Lent::NONE])
}

/// Makes a region for an owner.
pub fn make_region(d: u32, regions: &mut [u32], caller: u32, owner: u32, start: u32, length: u32) -> u32 {
    let numbers = [d, caller, owner, start, length];
    call(13, &numbers, [Lent::NONE, Lent::Out(regions), Lent::NONE, Lent::NONE, Lent::NONE])
}

/// Passes a region to another owner.
pub fn pass_region(d: u32, regions: &mut [u32], caller: u32, owner: u32, start: u32, length: u32) -> u32 {
    let numbers = [d, caller, owner, start, length];
    call(14, &numbers, [Lent::NONE, Lent::Out(regions), Lent::NONE, Lent::NONE, Lent::NONE])
}

/// Gives a receiver an export of a region.
pub fn give_export(
    d: u32,
    regions: &mut [u32],
    caller: u32,
    receiver: u32,
    right: u32,
    start: u32,
    length: u32,
) -> u32 {
    let numbers = [d, caller, receiver, right, start, length];
    call(15, &numbers, [Lent::NONE, Lent::Out(regions), Lent::NONE, Lent::NONE, Lent::NONE])
}

/// Gives a domain a right on a region, where the caller may. Result: the number of words written.
pub fn change_by(
    pool: &mut [u32],
    shape: &[u32],
    regions: &[u32],
    caller: u32,
    domain: u32,
    start: u32,
    length: u32,
    right: u32,
    allowance: u32,
    out: &mut [u32],
) -> u32 {
    let numbers = [caller, domain, start, length, right, allowance];
    call(16, &numbers, [Lent::Out(pool), Lent::In(regions), Lent::NONE, Lent::Out(out), Lent::In(shape)])
}
