//! Gate sets of 193 words: 64 times domain, address, gate (0xFFFFFFFF return, else the destination), then the count.

pub const COUNT: usize = 192;
pub const RETURN: u32 = u32::MAX;

/// The first held gate at a place.
pub fn position(gates: &[u32; 193], domain: u32, address: u32) -> Option<usize> {
    let held = &gates[..3 * gates[COUNT] as usize];
    held.chunks_exact(3).position(|gate| gate[0] == domain && gate[1] == address)
}

fn refusal(d: u32, gates: &[u32; 193], domain: u32, address: u32, destination: Option<u32>) -> Result<(), u32> {
    if !(1..=4).contains(&d) {
        Err(1)
    } else if gates[COUNT] > 64 {
        Err(18)
    } else if domain >= d || destination.is_some_and(|destination| destination >= d) {
        Err(2)
    } else if address & 3 != 0 {
        Err(11)
    } else {
        Ok(())
    }
}

/// Refusals 1, 18, 2, 11, 14, 12. A gate without a destination is a return gate.
pub fn set(d: u32, gates: &mut [u32; 193], domain: u32, address: u32, destination: Option<u32>) -> u32 {
    if let Err(refusal) = refusal(d, gates, domain, address, destination) {
        return refusal;
    }
    if destination == Some(domain) {
        return 14;
    }
    let count = gates[COUNT] as usize;
    let place = position(gates, domain, address).unwrap_or(count);
    if place == 64 {
        return 12;
    }
    gates[3 * place..3 * place + 3].copy_from_slice(&[domain, address, destination.unwrap_or(RETURN)]);
    if place == count {
        gates[COUNT] += 1;
    }
    0
}

/// Refusals 1, 18, 2, 11, 13.
pub fn remove(d: u32, gates: &mut [u32; 193], domain: u32, address: u32) -> u32 {
    if let Err(refusal) = refusal(d, gates, domain, address, None) {
        return refusal;
    }
    let Some(place) = position(gates, domain, address) else {
        return 13;
    };
    let end = 3 * gates[COUNT] as usize;
    gates.copy_within(3 * place + 3..end, 3 * place);
    gates[COUNT] -= 1;
    0
}
