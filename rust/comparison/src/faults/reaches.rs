//! Wrong lookups, of which the right, the entry and the loads are as they must be, and the reach is not.

use crate::subject::{Subject, Twin};
use model::shape::Shape;

/// The bits of an address in a part and in a block, by the loads.
const PART_BITS: [u32; 4] = [0, 19, 9, 2];
const BLOCK_BITS: [u32; 4] = [0, 22, 12, 6];

/// The twin's lookup with its five results altered before as many of them as fit are given; those of a refusal stay.
fn altered(
    pool: &[u32],
    shape: Shape,
    domain: u32,
    address: u32,
    out: &mut [u32],
    alter: impl FnOnce(&mut [u32; 5]),
) -> u32 {
    let mut results = [0; 5];
    let number = Twin.lookup(pool, &shape.words(), domain, address, &mut results);
    if number == 0 {
        alter(&mut results);
    }
    out.iter_mut().zip(results).for_each(|(word, result)| *word = result);
    number
}

/// The bytes around an address in whose number the low `bits` bits are all.
fn around(address: u32, bits: u32) -> (u32, u32) {
    (address >> bits << bits, address | ((1 << bits) - 1))
}

pub fn stops_at_the_part(pool: &[u32], shape: Shape, domain: u32, address: u32, out: &mut [u32]) -> u32 {
    altered(pool, shape, domain, address, out, |results| {
        (results[3], results[4]) = around(address, PART_BITS[results[2] as usize]);
    })
}

pub fn gives_the_block(pool: &[u32], shape: Shape, domain: u32, address: u32, out: &mut [u32]) -> u32 {
    altered(pool, shape, domain, address, out, |results| {
        (results[3], results[4]) = around(address, BLOCK_BITS[results[2] as usize]);
    })
}

/// The right of a byte and its reach, if the byte is there and the walk is good.
fn beside(pool: &[u32], shape: Shape, domain: u32, byte: Option<u32>) -> Option<[u32; 5]> {
    let mut results = [0; 5];
    let number = Twin.lookup(pool, &shape.words(), domain, byte?, &mut results);
    (number == 0).then_some(results)
}

/// Where the stretch ends at the block's last byte, it goes on into the next block that begins with the same right.
pub fn runs_on_after(pool: &[u32], shape: Shape, domain: u32, address: u32, out: &mut [u32]) -> u32 {
    altered(pool, shape, domain, address, out, |results| {
        let (_, last) = around(address, BLOCK_BITS[results[2] as usize]);
        match beside(pool, shape, domain, last.checked_add(1)) {
            Some(next) if results[4] == last && next[0] == results[0] => results[4] = next[4],
            _ => {}
        }
    })
}

/// The same towards the block before.
pub fn runs_on_before(pool: &[u32], shape: Shape, domain: u32, address: u32, out: &mut [u32]) -> u32 {
    altered(pool, shape, domain, address, out, |results| {
        let (first, _) = around(address, BLOCK_BITS[results[2] as usize]);
        match beside(pool, shape, domain, first.checked_sub(1)) {
            Some(next) if results[3] == first && next[0] == results[0] => results[3] = next[3],
            _ => {}
        }
    })
}

/// All parts of the block with the right count, also those with another between them and the word.
pub fn joins_what_lies_apart(pool: &[u32], shape: Shape, domain: u32, address: u32, out: &mut [u32]) -> u32 {
    altered(pool, shape, domain, address, out, |results| {
        let [right, entry, loads, ..] = *results;
        let (bits, parts) = (PART_BITS[loads as usize], if loads == 3 { 16 } else { 8 });
        let (block, _) = around(address, BLOCK_BITS[loads as usize]);
        let same = |part: &u32| entry >> (2 * part) & 3 == right;
        if let (Some(first), Some(last)) = ((0..parts).find(same), (0..parts).rev().find(same)) {
            (results[3], results[4]) = (block + (first << bits), around(block + (last << bits), bits).1);
        }
    })
}

/// The bits 16 to 30 of a root or middle entry, which are zero, are read as rights too.
pub fn reads_sixteen_rights(pool: &[u32], shape: Shape, domain: u32, address: u32, out: &mut [u32]) -> u32 {
    altered(pool, shape, domain, address, out, |results| {
        let (_, last) = around(address, BLOCK_BITS[results[2] as usize]);
        if results[2] < 3 && results[0] == 0 && results[4] == last {
            results[4] = last.wrapping_add(7 << PART_BITS[results[2] as usize]);
        }
    })
}

/// A leaf entry's rights above the eighth are not looked at.
pub fn reads_eight_rights(pool: &[u32], shape: Shape, domain: u32, address: u32, out: &mut [u32]) -> u32 {
    altered(pool, shape, domain, address, out, |results| {
        let (_, half) = around(address, BLOCK_BITS[3] - 1);
        if results[2] == 3 {
            results[4] = results[4].min(half);
        }
    })
}

pub fn gives_the_end(pool: &[u32], shape: Shape, domain: u32, address: u32, out: &mut [u32]) -> u32 {
    altered(pool, shape, domain, address, out, |results| results[4] = results[4].wrapping_add(1))
}

/// As the end of the last stretch wraps around to 0, so does its last byte.
pub fn loses_the_last_byte(pool: &[u32], shape: Shape, domain: u32, address: u32, out: &mut [u32]) -> u32 {
    altered(pool, shape, domain, address, out, |results| {
        if results[4] == u32::MAX {
            results[4] = 0;
        }
    })
}

pub fn gives_the_last_word(pool: &[u32], shape: Shape, domain: u32, address: u32, out: &mut [u32]) -> u32 {
    altered(pool, shape, domain, address, out, |results| results[4] &= !3)
}

pub fn begins_at_the_word(pool: &[u32], shape: Shape, domain: u32, address: u32, out: &mut [u32]) -> u32 {
    altered(pool, shape, domain, address, out, |results| results[3] = address & !3)
}

/// The low two bits of the address come back with the first byte.
pub fn keeps_the_low_bits(pool: &[u32], shape: Shape, domain: u32, address: u32, out: &mut [u32]) -> u32 {
    altered(pool, shape, domain, address, out, |results| results[3] |= address & 3)
}

pub fn counts_in_words(pool: &[u32], shape: Shape, domain: u32, address: u32, out: &mut [u32]) -> u32 {
    altered(pool, shape, domain, address, out, |results| {
        results[3] /= 4;
        results[4] /= 4;
    })
}

/// The bytes are counted from the block's first one.
pub fn counts_from_the_block(pool: &[u32], shape: Shape, domain: u32, address: u32, out: &mut [u32]) -> u32 {
    altered(pool, shape, domain, address, out, |results| {
        let (first, _) = around(address, BLOCK_BITS[results[2] as usize]);
        results[3] -= first;
        results[4] -= first;
    })
}

pub fn swaps_first_and_last(pool: &[u32], shape: Shape, domain: u32, address: u32, out: &mut [u32]) -> u32 {
    altered(pool, shape, domain, address, out, |results| results.swap(3, 4))
}

pub fn three_words_alone(pool: &[u32], shape: Shape, domain: u32, address: u32, out: &mut [u32]) -> u32 {
    let most = out.len().min(3);
    Twin.lookup(pool, &shape.words(), domain, address, &mut out[..most])
}

/// First and last come together or not at all.
pub fn both_or_none(pool: &[u32], shape: Shape, domain: u32, address: u32, out: &mut [u32]) -> u32 {
    let most = if out.len() == 4 { 3 } else { out.len() };
    Twin.lookup(pool, &shape.words(), domain, address, &mut out[..most])
}

pub fn clears_the_sixth_word(pool: &[u32], shape: Shape, domain: u32, address: u32, out: &mut [u32]) -> u32 {
    out.iter_mut().skip(5).take(1).for_each(|word| *word = 0);
    Twin.lookup(pool, &shape.words(), domain, address, out)
}

/// On a refusal the first three words are zero, and the reach is what was there.
pub fn refuses_with_a_reach(pool: &[u32], shape: Shape, domain: u32, address: u32, out: &mut [u32]) -> u32 {
    let mut results = [0; 5];
    let number = Twin.lookup(pool, &shape.words(), domain, address, &mut results);
    let given = if number == 0 { 5 } else { 3 };
    out.iter_mut().zip(results).take(given).for_each(|(word, result)| *word = result);
    number
}

/// A walk that meets a bad entry answers with that entry's block.
pub fn refuses_with_the_block(pool: &[u32], shape: Shape, domain: u32, address: u32, out: &mut [u32]) -> u32 {
    let number = Twin.lookup(pool, &shape.words(), domain, address, out);
    if number == 6 {
        let (first, last) = around(address, BLOCK_BITS[1]);
        out.iter_mut().skip(3).zip([first, last]).for_each(|(word, result)| *word = result);
    }
    number
}
