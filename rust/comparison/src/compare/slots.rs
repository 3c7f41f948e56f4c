//! Checks through the lookaside buffer and flushes, on buffers in and out of order.

use super::{same_words, Expected, Run};
use crate::given::{pools, requests, shapes, states};
use crate::subject::LENGTH;
use crate::{hold, Difference};
use model::buffer::{Access, Buffer, BUFFER_WORDS};
use model::shape::Shape;

/// `count` pools, each with a buffer through which a number of checks and flushes go one after the other.
pub fn slots(run: &mut Run, count: usize) -> Result<(), Difference> {
    for turn in 0..count {
        let shape = shapes::any(&mut run.rng, turn);
        let mut pool = pools::sound(&mut run.rng, shape);
        if run.rng.once_in(4) {
            pools::damage(&mut run.rng, &mut pool, shape);
        }
        let mut buffer = states::buffer(&mut run.rng, shape.domains);
        for _ in 0..100 {
            match run.rng.below(24) {
                0 => one_flush(run, &mut buffer, shape)?,
                1 => wrong_lengths(run, &pool, shape)?,
                2 => {
                    let wrong = shapes::wrong(&mut run.rng, shape);
                    one_check(run, &pool, wrong, &mut buffer)?;
                }
                _ => one_check(run, &pool, shape, &mut buffer)?,
            }
        }
    }
    Ok(())
}

/// An access at an address that a slot of the buffer may hold, or at any.
fn access(run: &mut Run, shape: Shape, buffer: &[u32]) -> Access {
    let rng = &mut run.rng;
    let kind = if rng.once_in(20) { rng.pick(&[3, 4, u32::MAX]) } else { rng.below(3) };
    let size = if rng.once_in(20) { rng.pick(&[0, 3, 5, 8, u32::MAX]) } else { rng.pick(&[1, 2, 4, 4, 4]) };
    let near = buffer[4 * rng.index(64) + 2].wrapping_add(rng.below(80));
    let at = if rng.once_in(2) { near } else { requests::address(rng) };
    let address = if rng.once_in(8) { at } else { at & !3 };
    let domain = if rng.once_in(20) { shape.domains + rng.below(3) } else { rng.below(shape.domains.clamp(1, 4)) };
    Access { domain, kind, size, address }
}

fn one_check(run: &mut Run, pool: &[u32], shape: Shape, buffer: &mut [u32]) -> Result<(), Difference> {
    let access = access(run, shape, buffer);
    let mut must = Buffer::from_words(buffer);
    let answer = must.check(pool, shape, access);
    let mut out = run.lend();
    let number = run.subject.check(pool, &shape.words(), buffer, access, &mut out);
    run.tally.answered("check", number);
    let what = format!("{access:x?} as {shape:?}");
    let results = answer.map(|verdict| [u32::from(verdict.pass), verdict.loads]);
    Expected::new(results).held(&what, number, &out)?;
    if let Ok(verdict) = answer {
        let verb = if verdict.pass { "passes" } else { "is denied" };
        run.tally.met(&format!("check {verb} with {} loads", verdict.loads));
    }
    same_words(&what, buffer, &must.to_words())
}

fn one_flush(run: &mut Run, buffer: &mut [u32], shape: Shape) -> Result<(), Difference> {
    let domain = if run.rng.once_in(6) { run.rng.word() } else { run.rng.below(shape.domains + 1) };
    let request = requests::any(&mut run.rng, shape.domains);
    let (start, length) = (request.start, request.length);
    let mut must = Buffer::from_words(buffer);
    let held = must.clone();
    let (call, number, answer) = match run.rng.below(8) {
        0 => ("flush of all", run.subject.flush_all(buffer), must.flush_all()),
        1 => ("flush of a domain", run.subject.flush_domain(buffer, domain), must.flush_domain(domain)),
        _ => (
            "flush of a region",
            run.subject.flush_region(buffer, domain, start, length),
            must.flush_region(domain, start, length),
        ),
    };
    run.tally.answered(call, number);
    let what = format!("{call}, domain {domain}, start {start:#x}, length {length:#x}");
    let must_number = answer.err().unwrap_or(0);
    hold!(number == must_number, "{what}: answers {number}, must be {must_number}");
    if call == "flush of a region" && number == 0 {
        run.tally.region(call, start, length);
    }
    let emptied = held.slots.iter().zip(&must.slots).filter(|(old, new)| old != new).count();
    if emptied > 1 {
        run.tally.met("flush empties several slots");
    }
    if held.slots.iter().any(|slot| slot.level > 3) && must.slots.iter().any(|slot| slot.level > 3) {
        run.tally.met("flush meets slots out of order");
    }
    same_words(&what, buffer, &must.to_words())
}

/// A buffer of another length is refused before all else, and stays.
fn wrong_lengths(run: &mut Run, pool: &[u32], shape: Shape) -> Result<(), Difference> {
    let length = run.rng.pick(&[0, 1, BUFFER_WORDS - 1, BUFFER_WORDS + 1, 2 * BUFFER_WORDS]);
    let mut words: Vec<u32> = (0..length).map(|_| run.rng.word()).collect();
    let must = words.clone();
    let shape = if run.rng.once_in(2) { shapes::wrong(&mut run.rng, shape) } else { shape };
    let access = Access { domain: run.rng.below(5), kind: 0, size: 4, address: 0 };
    let mut out = run.lend();
    let number = run.subject.check(pool, &shape.words(), &mut words, access, &mut out);
    run.tally.answered("check", number);
    Expected::new::<2>(Err(LENGTH)).held("check with a buffer of another length", number, &out)?;
    let flushes = [
        ("flush of all", run.subject.flush_all(&mut words)),
        ("flush of a domain", run.subject.flush_domain(&mut words, 0)),
        ("flush of a region", run.subject.flush_region(&mut words, 0, 0, 0)),
    ];
    for (call, number) in flushes {
        run.tally.answered(call, number);
        hold!(number == LENGTH, "{call} of a buffer of another length: answers {number}");
    }
    same_words("a buffer of another length", &words, &must)
}
