//! Listings of any pool, whole and in parts.

use super::{same_words, Expected, Run, MARK};
use crate::given::{pools, shapes};
use crate::Difference;
use model::listing::{list, Run as Listed};
use model::shape::Shape;

/// `count` pools, each listed from several run numbers on into lent words of several lengths.
pub fn listings(run: &mut Run, count: usize) -> Result<(), Difference> {
    for turn in 0..count {
        let crowded = turn % 32 == 0;
        let shape = if crowded { Shape::new(4, 8, 64) } else { shapes::any(&mut run.rng, turn) };
        let mut pool = if crowded { pools::crowded } else { pools::sound }(&mut run.rng, shape);
        if !crowded && run.rng.once_in(5) {
            pools::damage(&mut run.rng, &mut pool, shape);
        }
        let wrong = shapes::wrong(&mut run.rng, shape);
        for given in [shape, shape, shape, wrong] {
            one_listing(run, &pool, given)?;
        }
    }
    Ok(())
}

fn one_listing(run: &mut Run, pool: &[u32], shape: Shape) -> Result<(), Difference> {
    let answer = list(pool, shape);
    let total = answer.as_ref().map_or(0, Vec::len) as u32;
    let from = match run.rng.below(6) {
        0 => total,
        1 => total.saturating_sub(1),
        2 => u32::MAX,
        3 => run.rng.below(total + 2),
        _ => 0,
    };
    let length = match run.rng.below(4) {
        0 => 4 * total as usize + 5,
        1 => run.rng.index(9),
        _ => run.rng.index(4 * total as usize + 9),
    };
    let mut runs = vec![MARK; length];
    let mut out = run.lend();
    let number = run.subject.list(pool, &shape.words(), from, &mut runs, &mut out);
    run.tally.answered("listing", number);
    let what = format!("listing of {shape:?} from {from} into {length} words of {total} runs");
    Expected::new(answer.as_ref().map(|_| [total]).map_err(|refusal| *refusal)).held(&what, number, &out)?;
    let listed = answer.unwrap_or_default();
    note(run, &listed, from, length);
    same_words(&what, &runs, &part(&listed, from, length))
}

/// The lent words after a listing: whole runs from a number on, and marks.
pub(super) fn part(listed: &[Listed], from: u32, length: usize) -> Vec<u32> {
    let wanted = listed.iter().skip(from as usize).take(length / 4);
    let mut words: Vec<u32> = wanted.flat_map(|run| [run.domain, run.first, run.last, run.right]).collect();
    words.resize(length, MARK);
    words
}

fn note(run: &mut Run, listed: &[Listed], from: u32, length: usize) {
    let total = listed.len();
    run.tally.met(match total {
        0 => "listing: no run",
        1..1000 => "listing: fewer than 1,000 runs",
        1000..20_000 => "listing: 1,000 runs or more",
        _ => "listing: 20,000 runs or more",
    });
    if length / 4 < total.saturating_sub(from as usize) {
        run.tally.met("listing: not all fit");
    }
    if !length.is_multiple_of(4) {
        run.tally.met("listing: room for part of a run");
    }
    if from as usize > total {
        run.tally.met("listing: from past the last");
    }
    if listed.iter().any(|run| run.last == u32::MAX) {
        run.tally.met("listing: a run to the last byte");
    }
    if listed.windows(2).any(|two| two[0].last == u32::MAX && two[1].first == 0 && two[0].right == two[1].right) {
        run.tally.met("listing: one right at a domain's end and the next one's start");
    }
}
