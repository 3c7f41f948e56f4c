//! Starts and lengths of every remainder by 4: changes, region flushes and new regions at edges of words, entries,
//! pages and blocks and at both ends of memory. Each is held against the model and against the bytes asked for, with no
//! rounding at all: a word is covered exactly where one of its bytes is asked for, and 5 is given exactly where one
//! lies past the end.

use super::cuts::every_cut;
use super::{same_words, Expected, Run, MARK};
use crate::{hold, Difference};
use model::buffer::{Buffer, BUFFER_WORDS, SLOTS};
use model::change::{differing, Request};
use model::regions::{Asked, REGIONS_WORDS};
use model::shape::Shape;
use model::state::State;
use std::ops::Range;

/// Room for a region over the edge of two blocks.
const SHAPE: Shape = Shape::new(1, 2, 2);
const MEMORY: u64 = 1 << 32;

/// Where the starts begin; the last is at the top of memory.
const FROM: [u32; 6] = [0, 0x1000, 0x1038, 0x1FF8, 0x3F_FFF8, 0xFFFF_FFF8];
const STARTS: u32 = 8;
const LENGTHS: Range<u32> = 0..13;

/// Every start and length near the edges, and at the bottom lengths whose sum with the start's low bits passes 32 bits.
pub fn lengths(run: &mut Run) -> Result<(), Difference> {
    for start in FROM.into_iter().flat_map(|from| (0..STARTS).map(move |more| from + more)) {
        for length in LENGTHS {
            one_length(run, start, length)?;
            cuts_of(run, start, length)?;
        }
    }
    for start in 0..8 {
        for less in 0..8 {
            one_length(run, start, u32::MAX - less)?;
        }
    }
    Ok(())
}

fn one_length(run: &mut Run, start: u32, length: u32) -> Result<(), Difference> {
    let asked = u64::from(start)..u64::from(start) + u64::from(length);
    let must = match length {
        0 => 4,
        _ if asked.end > MEMORY => 5,
        _ => 0,
    };
    one_change(run, start, length, must, &asked)?;
    one_flush(run, start, length, must, &asked)?;
    one_region(run, start, length, must, &asked)
}

/// Tells the tally what was done with the region, and where it ends: before the last word, with it, or past it.
fn note(run: &mut Run, call: &str, with: &str, start: u32, length: u32) {
    let end = u64::from(start) + u64::from(length);
    let place = match end {
        _ if length == 0 => return,
        _ if end > MEMORY => " past the end",
        _ if end > MEMORY - 4 => " of the last word",
        _ => "",
    };
    run.tally.region(&format!("{call}{place}{with}"), start, length);
}

fn one_change(run: &mut Run, start: u32, length: u32, must: u32, asked: &Range<u64>) -> Result<(), Difference> {
    let request = Request { domain: 0, start, length, right: 1 + run.rng.below(3) };
    let before = State::fresh(SHAPE);
    let answer = before.changed(request);
    let count = answer.as_ref().map(|after| differing(&before.words, &after.words));
    let mut pool = before.words.clone();
    let mut out = run.lend();
    let number = run.subject.change(&mut pool, &SHAPE.words(), request, u32::MAX, &mut out);
    let what = format!("{request:x?} in a fresh pool");
    hold!(number == must, "{what}: answers {number}, must be {must} by its bytes");
    Expected::new(count.map(|count| [count]).map_err(|refusal| *refusal)).held(&what, number, &out)?;
    run.tally.answered("change", number);
    note(run, "change", "", start, length);
    let Ok(after) = answer else {
        return same_words(&what, &pool, &before.words);
    };
    same_words(&what, &pool, &after.words)?;
    bytes_beside(run, &what, &pool, request.right, asked)
}

/// Every cut of a change of the region where it has one right and its tables stand, so that the stores are few.
fn cuts_of(run: &mut Run, start: u32, length: u32) -> Result<(), Difference> {
    let request = Request { domain: 0, start, length, right: 1 + run.rng.below(3) };
    let other = Request { right: request.right % 3 + 1, ..request };
    if let Ok(before) = State::fresh(SHAPE).changed(request) {
        let after = before.changed(other).expect("the tables stay");
        every_cut(run, &before, &after, other)?;
        note(run, "change", " with every cut", start, length);
    }
    Ok(())
}

/// The bytes at both ends of the region: those of a word of which a byte is asked for have the right, no others.
fn bytes_beside(run: &mut Run, what: &str, pool: &[u32], right: u32, asked: &Range<u64>) -> Result<(), Difference> {
    let beside = [asked.start, asked.end - 1].into_iter().flat_map(|end| end.saturating_sub(12)..end + 12);
    for byte in beside.filter(|byte| *byte < MEMORY) {
        let word = byte / 4 * 4..byte / 4 * 4 + 4;
        let must = if meet(&word, asked) { right } else { 0 };
        let mut out = [MARK];
        let number = run.subject.lookup(pool, &SHAPE.words(), 0, byte as u32, &mut out);
        hold!(number == 0 && out[0] == must, "{what}: right {} at byte {byte:#x}, must be {must}", out[0]);
    }
    Ok(())
}

fn meet(one: &Range<u64>, other: &Range<u64>) -> bool {
    one.start < other.end && other.start < one.end
}

/// The flush of a buffer that holds the blocks near the region, of all three levels.
fn one_flush(run: &mut Run, start: u32, length: u32, must: u32, asked: &Range<u64>) -> Result<(), Difference> {
    let held = near(start, length);
    let mut buffer = held.to_words();
    let number = run.subject.flush_region(&mut buffer, 0, start, length);
    let what = format!("flush of a region, start {start:#x}, length {length:#x}");
    hold!(number == must, "{what}: answers {number}, must be {must} by its bytes");
    let mut model = held.clone();
    hold!(model.flush_region(0, start, length).err().unwrap_or(0) == must, "{what}: the model differs");
    same_words(&what, &buffer, &model.to_words())?;
    for (old, new) in held.slots.iter().zip(Buffer::from_words(&buffer).slots).filter(|(old, _)| old.level > 0) {
        let block = u64::from(old.block)..u64::from(old.block) + (1 << BITS[old.level as usize - 1]);
        let emptied = number == 0 && meet(&block, asked);
        hold!((new.level == 0) == emptied, "{what}: the slot {old:x?} becomes {new:x?}");
    }
    run.tally.answered("flush of a region", number);
    note(run, "flush of a region", "", start, length);
    Ok(())
}

/// A region in an empty list: it holds the words of which a byte is asked for.
fn one_region(run: &mut Run, start: u32, length: u32, must: u32, asked: &Range<u64>) -> Result<(), Difference> {
    let mut list = [0; REGIONS_WORDS];
    let number = run.subject.make_region(&mut list, Asked { d: 2, caller: 0, start, length }, 1);
    let what = format!("making a region, start {start:#x}, length {length:#x}");
    hold!(number == must, "{what}: answers {number}, must be {must} by its bytes");
    let mut made = [0; REGIONS_WORDS];
    if number == 0 {
        made[..3].copy_from_slice(&[1, (asked.start / 4) as u32, asked.end.div_ceil(4) as u32]);
        made[REGIONS_WORDS - 1] = 1;
    }
    run.tally.answered("making a region", number);
    note(run, "making a region", "", start, length);
    same_words(&what, &list, &made)
}

const BITS: [u32; 3] = [22, 12, 6];

/// Slots of the blocks around the region's two ends and of their neighbours, at each level.
fn near(start: u32, length: u32) -> Buffer {
    let last = start.wrapping_add(length).wrapping_sub(1);
    let mut words = Vec::new();
    for (bits, level) in BITS.into_iter().zip(1..) {
        for end in [start, last] {
            for block in [end.wrapping_sub(1 << bits), end, end.wrapping_add(1 << bits)] {
                words.extend([0, level, block >> bits << bits, 0x8000_0000]);
            }
        }
    }
    assert!(words.len() <= 4 * SLOTS);
    words.resize(BUFFER_WORDS, 0);
    Buffer::from_words(&words)
}
