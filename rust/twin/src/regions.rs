//! Region lists of 321 words: 64 times owner, lo, hi, given, rights, then the count.

use crate::change::Request;
use crate::entries::Region;

pub const COUNT: usize = 320;

const OWNER: usize = 0;
const LO: usize = 1;
const HI: usize = 2;
const GIVEN: usize = 3;
const RIGHTS: usize = 4;

/// Who calls, and the bytes of the region.
#[derive(Clone, Copy)]
pub struct Asked {
    pub caller: u32,
    pub start: u32,
    pub length: u32,
}

fn held(regions: &[u32; 321]) -> std::slice::ChunksExact<'_, u32> {
    regions[..5 * regions[COUNT] as usize].chunks_exact(5)
}

/// Whether the caller may set the request's right in a region: its owner any, one with an export what is no greater,
/// that is the export's right or one below it (none below all, read below the other two), and none for itself.
#[inline]
fn lets(region: &[u32], caller: u32, request: &Request) -> bool {
    if region[OWNER] == caller {
        return true;
    }
    let given = caller < 16 && region[GIVEN] >> caller & 1 == 1;
    let export = region[RIGHTS] >> (2 * (caller & 15)) & 3;
    given && request.domain != caller && (request.right == export || request.right < export.min(2))
}

/// Whether every word of a region allows the request. It goes by stretches: from a word on, the earliest region that
/// holds it decides, up to its end, or to where an earlier one begins.
pub fn allows(regions: &[u32; 321], caller: u32, request: &Request, region: Region) -> bool {
    let mut at = region.lo;
    while at < region.hi {
        let mut end = region.hi;
        let mut decides = None;
        for held in held(regions).filter(|held| held[HI] > at && held[LO] < held[HI]) {
            if held[LO] <= at {
                end = end.min(held[HI]);
                decides = Some(held);
                break;
            }
            end = end.min(held[LO]);
        }
        if !decides.map_or(caller == 0, |held| lets(held, caller, request)) {
            return false;
        }
        at = end;
    }
    true
}

/// Refusals 1, 18, 2, 3, 4, 5; else the rounded region.
fn region(d: u32, regions: &[u32; 321], asked: Asked, other: u32, right: u32) -> Result<Region, u32> {
    if !(1..=4).contains(&d) {
        Err(1)
    } else if regions[COUNT] > 64 {
        Err(18)
    } else if asked.caller >= d || other >= d {
        Err(2)
    } else if right > 3 {
        Err(3)
    } else {
        Region::rounded(asked.start, asked.length)
    }
}

/// The words of the first held region of exactly these, if it is the caller's; else 19.
fn of_caller(regions: &mut [u32; 321], region: Region, caller: u32) -> Result<&mut [u32], u32> {
    let place = held(regions).position(|held| held[LO] == region.lo && held[HI] == region.hi).ok_or(19u32)?;
    let found = &mut regions[5 * place..5 * place + 5];
    if found[OWNER] != caller {
        return Err(19);
    }
    Ok(found)
}

/// Refusals 1, 18, 2, 4, 5, 19, 20.
pub fn make(d: u32, regions: &mut [u32; 321], asked: Asked, owner: u32) -> Result<(), u32> {
    let Region { lo, hi } = region(d, regions, asked, owner, 0)?;
    let meets = |held: &[u32]| held[LO].max(lo) < held[HI].min(hi);
    if asked.caller != 0 || held(regions).any(meets) {
        return Err(19);
    }
    let count = regions[COUNT] as usize;
    if count == 64 {
        return Err(20);
    }
    regions[5 * count..5 * count + 5].copy_from_slice(&[owner, lo, hi, 0, 0]);
    regions[COUNT] += 1;
    Ok(())
}

/// Refusals 1, 18, 2, 4, 5, 19.
pub fn pass(d: u32, regions: &mut [u32; 321], asked: Asked, owner: u32) -> Result<(), u32> {
    let region = region(d, regions, asked, owner, 0)?;
    let found = of_caller(regions, region, asked.caller)?;
    found[OWNER] = owner;
    found[GIVEN] = 0;
    found[RIGHTS] = 0;
    Ok(())
}

/// Refusals 1, 18, 2, 3, 4, 5, 19.
pub fn give(d: u32, regions: &mut [u32; 321], asked: Asked, receiver: u32, right: u32) -> Result<(), u32> {
    let region = region(d, regions, asked, receiver, right)?;
    let found = of_caller(regions, region, asked.caller)?;
    if receiver == asked.caller {
        return Err(19);
    }
    found[GIVEN] |= 1 << receiver;
    found[RIGHTS] = found[RIGHTS] & !(3 << (2 * receiver)) | right << (2 * receiver);
    Ok(())
}
