//! One fetch step. A call stack is 34 words: 16 times domain, return address, then the depth, then the current domain.

use crate::buffer::passes;
use crate::gates::{position, COUNT, RETURN};
use crate::lookup::lookup;
use crate::shape::Shape;

const DEPTH: usize = 32;
const CURRENT: usize = 33;
const FETCH: u32 = 2;

fn known(d: u32, gates: &[u32; 193], stack: &[u32; 34]) -> bool {
    let mut held = gates[..3 * gates[COUNT] as usize].chunks_exact(3);
    let mut frames = stack[..2 * stack[DEPTH] as usize].chunks_exact(2);
    stack[CURRENT] < d
        && frames.all(|frame| frame[0] < d)
        && held.all(|gate| gate[0] < d && (gate[2] < d || gate[2] == RETURN))
}

/// Refusals 18, 2, 10, 15, 6, 16, 17; the shape fits. Gives whether the fetch passes.
pub fn step(
    pool: &[u32],
    shape: Shape,
    gates: &[u32; 193],
    stack: &mut [u32; 34],
    address: u32,
    target: u32,
) -> Result<bool, u32> {
    if gates[COUNT] > 64 || stack[DEPTH] > 16 {
        return Err(18);
    }
    if !known(shape.d, gates, stack) {
        return Err(2);
    }
    if address & 3 != 0 || target & 3 != 0 {
        return Err(10);
    }
    let (current, depth) = (stack[CURRENT], stack[DEPTH] as usize);
    let fetch = |domain| lookup(pool, shape, domain, address).map(|found| passes(FETCH, found.right));
    match position(gates, current, address).map(|place| gates[3 * place + 2]) {
        None => fetch(current),
        Some(RETURN) => {
            if !fetch(current)? {
                return Ok(false);
            }
            if depth == 0 {
                return Err(16);
            }
            if stack[2 * depth - 1] != target {
                return Err(17);
            }
            stack[CURRENT] = stack[2 * depth - 2];
            stack[DEPTH] -= 1;
            Ok(true)
        }
        Some(destination) => {
            if depth == 16 {
                return Err(15);
            }
            if !fetch(destination)? {
                return Ok(false);
            }
            stack[2 * depth] = current;
            stack[2 * depth + 1] = target;
            stack[CURRENT] = destination;
            stack[DEPTH] += 1;
            Ok(true)
        }
    }
}
