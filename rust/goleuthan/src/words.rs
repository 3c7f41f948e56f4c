//! The library's functions as they are, on slices of words: the same parameters, numbers and results as in
//! `include/goleuthan.h`. This is the only file with `unsafe` in it.
//!
//! Why it is safe: a slice is a pointer that is not null and is aligned, with the length of words that may be read (and
//! written, where it is lent as mutable) while the call runs; two slices of one call never overlap where one is
//! mutable. No call asks for more. The library is proved to touch nothing else, and to return.
#![allow(clippy::too_many_arguments)]

mod c {
    extern "C" {
        pub fn gol_fresh(pool: *mut u32, words: usize, shape: *const u32, shape_len: usize) -> u32;
        pub fn gol_change(
            pool: *mut u32,
            words: usize,
            shape: *const u32,
            shape_len: usize,
            domain: u32,
            start: u32,
            length: u32,
            right: u32,
            allowance: u32,
            out: *mut u32,
            out_len: usize,
        ) -> u32;
        pub fn gol_tidy(
            pool: *mut u32,
            words: usize,
            shape: *const u32,
            shape_len: usize,
            allowance: u32,
            out: *mut u32,
            out_len: usize,
        ) -> u32;
        pub fn gol_lookup(
            pool: *const u32,
            words: usize,
            shape: *const u32,
            shape_len: usize,
            domain: u32,
            address: u32,
            out: *mut u32,
            out_len: usize,
        ) -> u32;
        pub fn gol_check(
            pool: *const u32,
            words: usize,
            shape: *const u32,
            shape_len: usize,
            buffer: *mut u32,
            buffer_len: usize,
            domain: u32,
            kind: u32,
            size: u32,
            address: u32,
            out: *mut u32,
            out_len: usize,
        ) -> u32;
        pub fn gol_list(
            pool: *const u32,
            words: usize,
            shape: *const u32,
            shape_len: usize,
            from: u32,
            runs: *mut u32,
            runs_len: usize,
            out: *mut u32,
            out_len: usize,
        ) -> u32;
        pub fn gol_step(
            pool: *const u32,
            words: usize,
            shape: *const u32,
            shape_len: usize,
            gates: *const u32,
            gates_len: usize,
            stack: *mut u32,
            stack_len: usize,
            address: u32,
            target: u32,
            out: *mut u32,
            out_len: usize,
        ) -> u32;
        pub fn gol_flush_all(buffer: *mut u32, buffer_len: usize) -> u32;
        pub fn gol_flush_domain(buffer: *mut u32, buffer_len: usize, domain: u32) -> u32;
        pub fn gol_flush_region(buffer: *mut u32, buffer_len: usize, domain: u32, start: u32, length: u32) -> u32;
        pub fn gol_set_switch_gate(
            d: u32,
            gates: *mut u32,
            gates_len: usize,
            domain: u32,
            address: u32,
            destination: u32,
        ) -> u32;
        pub fn gol_set_return_gate(d: u32, gates: *mut u32, gates_len: usize, domain: u32, address: u32) -> u32;
        pub fn gol_remove_gate(d: u32, gates: *mut u32, gates_len: usize, domain: u32, address: u32) -> u32;
        pub fn gol_make_region(
            d: u32,
            regions: *mut u32,
            regions_len: usize,
            caller: u32,
            owner: u32,
            start: u32,
            length: u32,
        ) -> u32;
        pub fn gol_pass_region(
            d: u32,
            regions: *mut u32,
            regions_len: usize,
            caller: u32,
            owner: u32,
            start: u32,
            length: u32,
        ) -> u32;
        pub fn gol_give_export(
            d: u32,
            regions: *mut u32,
            regions_len: usize,
            caller: u32,
            receiver: u32,
            right: u32,
            start: u32,
            length: u32,
        ) -> u32;
        pub fn gol_change_by(
            pool: *mut u32,
            words: usize,
            shape: *const u32,
            shape_len: usize,
            regions: *const u32,
            regions_len: usize,
            caller: u32,
            domain: u32,
            start: u32,
            length: u32,
            right: u32,
            allowance: u32,
            out: *mut u32,
            out_len: usize,
        ) -> u32;
    }
}

/// Makes the pool fresh: no domain has a right anywhere.
pub fn fresh(pool: &mut [u32], shape: &[u32]) -> u32 {
    unsafe { c::gol_fresh(pool.as_mut_ptr(), pool.len(), shape.as_ptr(), shape.len()) }
}

/// Gives a domain a right on a region. Result: the number of words written.
pub fn change(
    pool: &mut [u32],
    shape: &[u32],
    domain: u32,
    start: u32,
    length: u32,
    right: u32,
    allowance: u32,
    out: &mut [u32],
) -> u32 {
    let (shape, shape_len) = (shape.as_ptr(), shape.len());
    let (words, out_len) = (pool.len(), out.len());
    let (pool, out) = (pool.as_mut_ptr(), out.as_mut_ptr());
    unsafe { c::gol_change(pool, words, shape, shape_len, domain, start, length, right, allowance, out, out_len) }
}

/// Makes a sound pool settled. Result: the number of words written.
pub fn tidy(pool: &mut [u32], shape: &[u32], allowance: u32, out: &mut [u32]) -> u32 {
    let (shape, shape_len) = (shape.as_ptr(), shape.len());
    let (words, out_len) = (pool.len(), out.len());
    unsafe { c::gol_tidy(pool.as_mut_ptr(), words, shape, shape_len, allowance, out.as_mut_ptr(), out_len) }
}

/// The right of a word. Results: the right, the deciding entry, the loads made, and the first and the last byte of the
/// longest stretch of the right around the word in the entry's block.
pub fn lookup(pool: &[u32], shape: &[u32], domain: u32, address: u32, out: &mut [u32]) -> u32 {
    let (shape, shape_len) = (shape.as_ptr(), shape.len());
    let (words, out_len) = (pool.len(), out.len());
    unsafe { c::gol_lookup(pool.as_ptr(), words, shape, shape_len, domain, address, out.as_mut_ptr(), out_len) }
}

/// Checks an access through a lookaside buffer. Results: 1 for pass or 0 for deny, the loads made.
pub fn check(
    pool: &[u32],
    shape: &[u32],
    buffer: &mut [u32],
    domain: u32,
    kind: u32,
    size: u32,
    address: u32,
    out: &mut [u32],
) -> u32 {
    let (shape, shape_len) = (shape.as_ptr(), shape.len());
    let (words, buffer_len, out_len) = (pool.len(), buffer.len(), out.len());
    let (pool, buffer, out) = (pool.as_ptr(), buffer.as_mut_ptr(), out.as_mut_ptr());
    unsafe {
        c::gol_check(pool, words, shape, shape_len, buffer, buffer_len, domain, kind, size, address, out, out_len)
    }
}

/// Lists runs of one right from a run number on, four words a run. Result: the number of runs in all.
pub fn list(pool: &[u32], shape: &[u32], from: u32, runs: &mut [u32], out: &mut [u32]) -> u32 {
    let (shape, shape_len) = (shape.as_ptr(), shape.len());
    let (words, runs_len, out_len) = (pool.len(), runs.len(), out.len());
    let (pool, runs, out) = (pool.as_ptr(), runs.as_mut_ptr(), out.as_mut_ptr());
    unsafe { c::gol_list(pool, words, shape, shape_len, from, runs, runs_len, out, out_len) }
}

/// One fetch step. Result: 1 for pass, 0 for deny.
pub fn step(
    pool: &[u32],
    shape: &[u32],
    gates: &[u32],
    stack: &mut [u32],
    address: u32,
    target: u32,
    out: &mut [u32],
) -> u32 {
    let (shape, shape_len) = (shape.as_ptr(), shape.len());
    let (words, gates_len, stack_len, out_len) = (pool.len(), gates.len(), stack.len(), out.len());
    let (pool, gates, stack, out) = (pool.as_ptr(), gates.as_ptr(), stack.as_mut_ptr(), out.as_mut_ptr());
    unsafe {
        c::gol_step(pool, words, shape, shape_len, gates, gates_len, stack, stack_len, address, target, out, out_len)
    }
}

/// Empties every slot of a buffer.
pub fn flush_all(buffer: &mut [u32]) -> u32 {
    unsafe { c::gol_flush_all(buffer.as_mut_ptr(), buffer.len()) }
}

/// Empties the slots of a domain.
pub fn flush_domain(buffer: &mut [u32], domain: u32) -> u32 {
    unsafe { c::gol_flush_domain(buffer.as_mut_ptr(), buffer.len(), domain) }
}

/// Empties the slots of a domain whose block meets a region.
pub fn flush_region(buffer: &mut [u32], domain: u32, start: u32, length: u32) -> u32 {
    unsafe { c::gol_flush_region(buffer.as_mut_ptr(), buffer.len(), domain, start, length) }
}

/// Sets a switch gate.
pub fn set_switch_gate(d: u32, gates: &mut [u32], domain: u32, address: u32, destination: u32) -> u32 {
    unsafe { c::gol_set_switch_gate(d, gates.as_mut_ptr(), gates.len(), domain, address, destination) }
}

/// Sets a return gate.
pub fn set_return_gate(d: u32, gates: &mut [u32], domain: u32, address: u32) -> u32 {
    unsafe { c::gol_set_return_gate(d, gates.as_mut_ptr(), gates.len(), domain, address) }
}

/// Removes a gate.
pub fn remove_gate(d: u32, gates: &mut [u32], domain: u32, address: u32) -> u32 {
    unsafe { c::gol_remove_gate(d, gates.as_mut_ptr(), gates.len(), domain, address) }
}

/// Makes a region for an owner.
pub fn make_region(d: u32, regions: &mut [u32], caller: u32, owner: u32, start: u32, length: u32) -> u32 {
    unsafe { c::gol_make_region(d, regions.as_mut_ptr(), regions.len(), caller, owner, start, length) }
}

/// Passes a region to another owner.
pub fn pass_region(d: u32, regions: &mut [u32], caller: u32, owner: u32, start: u32, length: u32) -> u32 {
    unsafe { c::gol_pass_region(d, regions.as_mut_ptr(), regions.len(), caller, owner, start, length) }
}

/// Gives a receiver an export of a region.
pub fn give_export(
    d: u32,
    regions: &mut [u32],
    caller: u32,
    receiver: u32,
    right: u32,
    start: u32,
    length: u32,
) -> u32 {
    unsafe { c::gol_give_export(d, regions.as_mut_ptr(), regions.len(), caller, receiver, right, start, length) }
}

/// Gives a domain a right on a region, where the caller may. Result: the number of words written.
pub fn change_by(
    pool: &mut [u32],
    shape: &[u32],
    regions: &[u32],
    caller: u32,
    domain: u32,
    start: u32,
    length: u32,
    right: u32,
    allowance: u32,
    out: &mut [u32],
) -> u32 {
    let (words, out_len) = (pool.len(), out.len());
    unsafe {
        c::gol_change_by(
            pool.as_mut_ptr(),
            words,
            shape.as_ptr(),
            shape.len(),
            regions.as_ptr(),
            regions.len(),
            caller,
            domain,
            start,
            length,
            right,
            allowance,
            out.as_mut_ptr(),
            out_len,
        )
    }
}
