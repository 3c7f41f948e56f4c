//! Lent states: buffers, gate sets and call stacks, of random words, near to order, or in order.

use super::requests;
use crate::rng::Rng;
use model::buffer::{BUFFER_WORDS, SLOTS};
use model::gates::{GATES, GATES_WORDS};
use model::step::{FRAMES, STACK_WORDS};

pub(super) fn words(rng: &mut Rng, count: usize) -> Vec<u32> {
    (0..count).map(|_| rng.word()).collect()
}

/// A slot near to order: a known level, a block that is mostly aligned and an entry that is mostly good.
fn slot(rng: &mut Rng, domains: u32) -> [u32; 4] {
    let level = rng.pick(&[0, 1, 1, 2, 2, 2, 3, 3, 3, 4]);
    let bits = [22, 22, 12, 6, 6][level as usize];
    let address = requests::address(rng);
    let block = if rng.once_in(8) { address } else { address >> bits << bits };
    let entry = match rng.below(8) {
        0 => rng.word(),
        1 => 0x8001_0000 | rng.below(1 << 16),
        _ => 0x8000_0000 | rng.below(1 << 16),
    };
    [rng.below(domains + 1), level, block, entry]
}

/// A buffer: empty, in order, near to order, or random; the next-pointer is sometimes above 63.
pub fn buffer(rng: &mut Rng, domains: u32) -> Vec<u32> {
    let mut buffer = match rng.below(6) {
        0 => words(rng, BUFFER_WORDS),
        1 => vec![0; BUFFER_WORDS],
        _ => {
            let filled = rng.index(SLOTS + 1);
            let mut slots: Vec<u32> = (0..filled).flat_map(|_| slot(rng, domains)).collect();
            slots.resize(BUFFER_WORDS, 0);
            slots
        }
    };
    buffer[BUFFER_WORDS - 1] = if rng.once_in(20) { rng.pick(&[64, 65, u32::MAX]) } else { rng.below(64) };
    buffer
}

fn domain(rng: &mut Rng, domains: u32) -> u32 {
    if rng.once_in(600) {
        rng.pick(&[domains, 4, u32::MAX])
    } else {
        rng.below(domains)
    }
}

/// The few addresses at which generated gates stand, so that steps and settings meet them.
pub fn gate_address(rng: &mut Rng) -> u32 {
    4 * rng.below(24) + rng.pick(&[0, 0, 4096])
}

fn gate(rng: &mut Rng, domains: u32) -> [u32; 3] {
    let kind = if rng.once_in(2) { u32::MAX } else { domain(rng, domains) };
    [domain(rng, domains), gate_address(rng), kind]
}

/// A gate set: random words, or gates at a few places; the count is sometimes above 64.
pub fn gates(rng: &mut Rng, domains: u32) -> Vec<u32> {
    let mut gates: Vec<u32> = if rng.once_in(12) {
        words(rng, GATES_WORDS)
    } else {
        let held: Vec<u32> = (0..GATES).flat_map(|_| gate(rng, domains)).collect();
        held.into_iter().chain([0]).collect()
    };
    gates[GATES_WORDS - 1] = match rng.below(12) {
        0 => 0,
        1 => 65,
        2 => rng.word(),
        3 | 4 => 64,
        _ => rng.below(64),
    };
    gates
}

/// A call stack: random words, or frames in order; the depth is sometimes above 16.
pub fn stack(rng: &mut Rng, domains: u32) -> Vec<u32> {
    let mut stack: Vec<u32> = if rng.once_in(12) {
        words(rng, STACK_WORDS)
    } else {
        (0..FRAMES).flat_map(|_| [domain(rng, domains), 4 * rng.below(3)]).chain([0, 0]).collect()
    };
    stack[STACK_WORDS - 2] = match rng.below(12) {
        0 | 1 => 0,
        2 => 17,
        3 => rng.word(),
        4 | 5 => 16,
        _ => rng.below(16),
    };
    stack[STACK_WORDS - 1] = domain(rng, domains);
    stack
}
