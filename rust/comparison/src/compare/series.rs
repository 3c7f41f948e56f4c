//! Series of changes from a fresh pool. The model follows them in rights and owners alone and never reads the pool.

use super::{same_words, Expected, Run, MARK, MOST_LENT};
use crate::given::{requests, shapes};
use crate::{hold, Difference};
use model::change::{differing, Request};
use model::shape::Shape;
use model::state::State;
use model::walk;

/// `count` series of `length` changes.
pub fn series(run: &mut Run, count: usize, length: usize) -> Result<(), Difference> {
    for turn in 0..count {
        let shape = shapes::any(&mut run.rng, turn);
        note_shape(run, shape);
        let mut pool = fresh(run, shape)?;
        let mut state = State::fresh(shape);
        let mut last = None;
        for _ in 0..length {
            let request = request(run, shape, last);
            last = Some(request);
            state = finished_change(run, &mut pool, state, request)?;
            lookups(run, &pool, &state, request)?;
        }
    }
    Ok(())
}

fn note_shape(run: &mut Run, shape: Shape) {
    run.tally.met(&format!("series: D {}", shape.domains));
    run.tally.met(&format!("series: M {}", shape.middles));
    run.tally.met(match shape.leaves {
        0 => "series: L 0",
        64 => "series: L 64",
        _ => "series: L 1 to 63",
    });
}

/// A request of a series: any, the last one moved, or sometimes one that clears room.
pub fn request(run: &mut Run, shape: Shape, last: Option<Request>) -> Request {
    let rng = &mut run.rng;
    match (rng.below(16), last) {
        (0 | 1, _) => requests::clearing(rng, shape.domains),
        (2..=8, Some(last)) => requests::moved(rng, shape.domains, last),
        _ => requests::any(rng, shape.domains),
    }
}

/// A pool of random words, made fresh.
pub fn fresh(run: &mut Run, shape: Shape) -> Result<Vec<u32>, Difference> {
    let mut pool: Vec<u32> = (0..shape.length()).map(|_| run.rng.word()).collect();
    let number = run.subject.fresh(&mut pool, &shape.words());
    run.tally.answered("fresh", number);
    hold!(number == 0, "fresh {shape:?}: answers {number}");
    same_words(&format!("fresh {shape:?}"), &pool, &shape.fresh())?;
    Ok(pool)
}

/// A change with an allowance that suffices, sometimes just so.
pub fn finished_change(run: &mut Run, pool: &mut [u32], state: State, request: Request) -> Result<State, Difference> {
    let shape = state.shape;
    let answer = state.changed(request);
    let count = answer.as_ref().map(|after| differing(&state.words, &after.words));
    let allowance = match count {
        Ok(count) if run.rng.once_in(2) => count,
        _ => u32::MAX,
    };
    let mut out = run.lend();
    let number = run.subject.change(pool, &shape.words(), request, allowance, &mut out);
    run.tally.answered("change", number);
    let what = format!("{request:x?} in a series on {shape:?}");
    Expected::new(count.map(|count| [count]).map_err(|refusal| *refusal)).held(&what, number, &out)?;
    let after = answer.unwrap_or(state);
    same_words(&what, pool, &after.words)?;
    if number == 0 {
        run.tally.region("series: change", request.start, request.length);
        note(run, &after);
    }
    Ok(after)
}

fn note(run: &mut Run, after: &State) {
    let middles = after.middles.iter().flatten().count();
    let leaves = after.leaves.iter().flatten().count();
    run.tally.met(match (middles, leaves) {
        (0, _) => "series: a pool of roots alone",
        (_, 0) => "series: a pool with middle tables alone",
        _ if middles == after.middles.len() && leaves == after.leaves.len() => "series: a full pool",
        _ => "series: a pool with leaves",
    });
}

/// Lookups at the region's edges and at other addresses, in all domains.
pub fn lookups(run: &mut Run, pool: &[u32], state: &State, request: Request) -> Result<(), Difference> {
    let last = request.start.wrapping_add(request.length).wrapping_sub(1);
    let after = (last | 3).wrapping_add(1);
    let other = requests::address(&mut run.rng);
    for address in [request.start, request.start.wrapping_sub(4), last, last | 3, after, other] {
        let domain = run.rng.below(state.shape.domains);
        one_lookup(run, pool, state, domain, address)?;
    }
    Ok(())
}

fn one_lookup(run: &mut Run, pool: &[u32], state: &State, domain: u32, address: u32) -> Result<(), Difference> {
    let mut out = vec![MARK; MOST_LENT];
    let number = run.subject.lookup(pool, &state.shape.words(), domain, address, &mut out);
    let what = format!("lookup of {address:#x} in domain {domain} of {:?}", state.shape);
    let right = state.rights[domain as usize].at(address / 4);
    hold!(number == 0 && out[0] == right, "{what}: answers {number} and right {}, must be {right}", out[0]);
    Expected::found(walk::lookup(pool, state.shape, domain, address)).held(&what, number, &out)?;
    run.tally.met(["", "lookup in 1 load", "lookup in 2 loads", "lookup in 3 loads"][out[2] as usize]);
    Ok(())
}
