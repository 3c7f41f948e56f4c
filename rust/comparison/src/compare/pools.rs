//! Any pool: sound, damaged, random, of a wrong length, or read with another shape that fits its length.

use super::cuts::every_tidying_cut;
use super::{same_words, Expected, Run};
use crate::given::{pools, requests, shapes};
use crate::{hold, Difference};
use model::change::{change, differing, tidy};
use model::shape::Shape;
use model::state::State;
use model::walk::{lookup, read};

/// `count` pools; for each, calls of every kind with its shape, with wrong shapes, and with all others that fit.
pub fn pools(run: &mut Run, count: usize) -> Result<(), Difference> {
    for turn in 0..count {
        let made = shapes::any(&mut run.rng, turn);
        let pool = any_pool(run, made);
        let fitting = shapes::fitting(pool.len());
        run.tally.met(if fitting.len() > 1 { "pool that fits several shapes" } else { "pool that fits one shape" });
        let other = run.rng.pick(&fitting);
        if other != made {
            let sound = read(&pool, other).is_some();
            run.tally.met(if sound { "pool sound in another shape" } else { "pool not sound in another shape" });
        }
        let wrong = shapes::wrong(&mut run.rng, made);
        for shape in [made, other, wrong] {
            calls(run, &pool, shape)?;
        }
        wrong_length(run, &pool, made)?;
    }
    Ok(())
}

/// `count` sound pools, each tidied with every allowance.
pub fn tidyings(run: &mut Run, count: usize) -> Result<(), Difference> {
    for turn in 0..count {
        let shape = shapes::any(&mut run.rng, turn);
        let pool = pools::sound(&mut run.rng, shape);
        let Some(state) = read(&pool, shape) else {
            crate::differ!("a generated pool is not sound");
        };
        run.tally.met(if state.is_settled() { "sound pool, settled" } else { "sound pool, not settled" });
        every_tidying_cut(run, "making a sound pool", &state)?;
    }
    Ok(())
}

fn any_pool(run: &mut Run, shape: Shape) -> Vec<u32> {
    let mut pool = match run.rng.below(6) {
        0 => pools::random(&mut run.rng, shape),
        _ => pools::sound(&mut run.rng, shape),
    };
    if run.rng.once_in(3) {
        pools::damage(&mut run.rng, &mut pool, shape);
    }
    pool
}

fn calls(run: &mut Run, pool: &[u32], shape: Shape) -> Result<(), Difference> {
    for _ in 0..3 {
        one_change(run, pool, shape)?;
    }
    one_tidying(run, pool, shape)?;
    for _ in 0..12 {
        one_lookup(run, pool, shape)?;
    }
    Ok(())
}

/// A copy of the pool that is a word shorter or longer: every call refuses it.
fn wrong_length(run: &mut Run, pool: &[u32], shape: Shape) -> Result<(), Difference> {
    let mut other = pool.to_vec();
    match run.rng.below(3) {
        0 => other.truncate(pool.len() - 1),
        1 => other.push(0x8000_0000),
        _ => other.clear(),
    }
    run.tally.met("pool of another length");
    let mut copy = other.clone();
    let number = run.subject.fresh(&mut copy, &shape.words());
    run.tally.answered("fresh", number);
    hold!(number == 1 && copy == other, "fresh of {} words as {shape:?}: answers {number}", other.len());
    calls(run, &other, shape)
}

/// A change with any allowance. The words of a cut are held against the paper elsewhere; here each is old or finished.
fn one_change(run: &mut Run, pool: &[u32], shape: Shape) -> Result<(), Difference> {
    let domains = shape.domains.clamp(1, 4);
    let request = requests::any(&mut run.rng, domains);
    let allowance = if run.rng.once_in(3) { run.rng.below(2000) } else { u32::MAX };
    let mut copy = pool.to_vec();
    let mut out = run.lend();
    let number = run.subject.change(&mut copy, &shape.words(), request, allowance, &mut out);
    run.tally.answered("change of any pool", number);
    let what = format!("{request:x?} of any pool as {shape:?}");
    held_stores(&what, change(pool, shape, request), allowance, number, &out, pool, &copy)
}

fn one_tidying(run: &mut Run, pool: &[u32], shape: Shape) -> Result<(), Difference> {
    let allowance = if run.rng.once_in(3) { run.rng.below(4) } else { u32::MAX };
    let mut copy = pool.to_vec();
    let mut out = run.lend();
    let number = run.subject.tidy(&mut copy, &shape.words(), allowance, &mut out);
    run.tally.answered("tidying of any pool", number);
    let what = format!("tidying of any pool as {shape:?}");
    held_stores(&what, tidy(pool, shape), allowance, number, &out, pool, &copy)
}

pub(super) fn held_stores(
    what: &str,
    answer: Result<(State, State), u32>,
    allowance: u32,
    number: u32,
    out: &[u32],
    before: &[u32],
    now: &[u32],
) -> Result<(), Difference> {
    let after = match answer {
        Err(refusal) => {
            Expected::new::<1>(Err(refusal)).held(what, number, out)?;
            return same_words(what, now, before);
        }
        Ok((_, after)) => after.words,
    };
    let count = differing(before, &after);
    Expected::stores(count, allowance).held(what, number, out)?;
    if count <= allowance {
        return same_words(what, now, &after);
    }
    let kept = now.iter().zip(before.iter().zip(&after)).all(|(now, (old, new))| now == old || now == new);
    hold!(kept && differing(before, now) == allowance, "{what}: the cut is not on the way");
    Ok(())
}

fn one_lookup(run: &mut Run, pool: &[u32], shape: Shape) -> Result<(), Difference> {
    let address = requests::address(&mut run.rng);
    let domain = if run.rng.once_in(12) { run.rng.pick(&[4, 7, u32::MAX]) } else { run.rng.below(4) };
    let mut out = run.lend();
    let number = run.subject.lookup(pool, &shape.words(), domain, address, &mut out);
    run.tally.answered("lookup in any pool", number);
    let what = format!("lookup of {address:#x} in domain {domain} of any pool as {shape:?}");
    Expected::found(lookup(pool, shape, domain, address)).held(&what, number, &out)
}
