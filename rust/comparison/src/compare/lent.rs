//! Lent shapes of every length, of other forms and with a V, in every call that takes one: 101 comes before 1, and 1
//! before all else.

use super::listings::part;
use super::pools::held_stores;
use super::{same_words, Expected, Run, MARK};
use crate::given::{pools, regions, requests, shapes, states};
use crate::subject::{By, Step};
use crate::Difference;
use model::buffer::{Access, Buffer, BUFFER_WORDS};
use model::change::{change, tidy};
use model::face::{shape_of, EIGHTS, SHAPE_WORDS};
use model::gates::{Gates, GATES_WORDS};
use model::listing::list;
use model::regions::{change_by, Regions, REGIONS_WORDS};
use model::step::{CallStack, STACK_WORDS};
use model::walk::lookup;

type Call = fn(&mut Run, &[u32], &[u32]) -> Result<(), Difference>;

const CALLS: [Call; 8] =
    [one_fresh, one_change, one_change_by, one_tidying, one_lookup, one_listing, one_check, one_step];

/// `count` pools, each with a few lent shapes in calls of every kind.
pub fn shapes(run: &mut Run, count: usize) -> Result<(), Difference> {
    for _ in 0..count {
        let made = shapes::small(&mut run.rng);
        let mut pool = pools::sound(&mut run.rng, made);
        if run.rng.once_in(4) {
            pools::damage(&mut run.rng, &mut pool, made);
        }
        for _ in 0..6 {
            let shape = shapes::lent(&mut run.rng, made);
            note(run, &shape);
            for call in CALLS {
                call(run, &pool, &shape)?;
            }
        }
    }
    Ok(())
}

fn note(run: &mut Run, shape: &[u32]) {
    run.tally.met(&format!("lent shape of {} words", shape.len()));
    if shape.len() == SHAPE_WORDS {
        run.tally.met(match (shape[0] == EIGHTS, shape[4] == 0) {
            (true, true) => "lent shape of the paper's form",
            (true, false) => "lent shape with a V",
            (false, true) => "lent shape of another form",
            (false, false) => "lent shape of another form with a V",
        });
    }
}

fn one_fresh(run: &mut Run, pool: &[u32], shape: &[u32]) -> Result<(), Difference> {
    let answer = shape_of(shape, &[]).and_then(|shape| shape.fits(pool).map(|()| shape.fresh()));
    let mut copy = pool.to_vec();
    let number = run.subject.fresh(&mut copy, shape);
    run.tally.answered("fresh by a lent shape", number);
    let what = format!("fresh by {shape:x?}");
    Expected::new::<0>(answer.as_ref().map(|_| []).map_err(|refusal| *refusal)).held(&what, number, &[])?;
    same_words(&what, &copy, answer.as_deref().unwrap_or(pool))
}

fn one_change(run: &mut Run, pool: &[u32], shape: &[u32]) -> Result<(), Difference> {
    let request = requests::any(&mut run.rng, 2);
    let allowance = if run.rng.once_in(3) { run.rng.below(2000) } else { u32::MAX };
    let (mut copy, mut out) = (pool.to_vec(), run.lend());
    let number = run.subject.change(&mut copy, shape, request, allowance, &mut out);
    run.tally.answered("change by a lent shape", number);
    let answer = shape_of(shape, &[]).and_then(|shape| change(pool, shape, request));
    held_stores(&format!("{request:x?} by {shape:x?}"), answer, allowance, number, &out, pool, &copy)
}

fn one_change_by(run: &mut Run, pool: &[u32], shape: &[u32]) -> Result<(), Difference> {
    let held = regions::list(&mut run.rng, 2);
    let (caller, request) = regions::request(&mut run.rng, &held, 2);
    let lent = resized(run, held);
    let allowance = if run.rng.once_in(3) { run.rng.below(4) } else { u32::MAX };
    let lengths = [(lent.len(), REGIONS_WORDS)];
    note_lengths(run, shape, &lengths);
    let (mut copy, mut out) = (pool.to_vec(), run.lend());
    let by = By { regions: &lent, caller, request, allowance };
    let number = run.subject.change_by(&mut copy, shape, by, &mut out);
    run.tally.answered("change by a caller by a lent shape", number);
    let answer = shape_of(shape, &lengths)
        .and_then(|shape| change_by(pool, shape, &Regions::from_words(&lent), caller, request));
    let what = format!("{request:x?} by {caller:#x} by {shape:x?} with a list of {} words", lent.len());
    held_stores(&what, answer, allowance, number, &out, pool, &copy)
}

fn one_tidying(run: &mut Run, pool: &[u32], shape: &[u32]) -> Result<(), Difference> {
    let allowance = if run.rng.once_in(3) { run.rng.below(4) } else { u32::MAX };
    let (mut copy, mut out) = (pool.to_vec(), run.lend());
    let number = run.subject.tidy(&mut copy, shape, allowance, &mut out);
    run.tally.answered("tidying by a lent shape", number);
    let answer = shape_of(shape, &[]).and_then(|shape| tidy(pool, shape));
    held_stores(&format!("tidying by {shape:x?}"), answer, allowance, number, &out, pool, &copy)
}

fn one_lookup(run: &mut Run, pool: &[u32], shape: &[u32]) -> Result<(), Difference> {
    let (domain, address) = (run.rng.below(3), requests::address(&mut run.rng));
    let mut out = run.lend();
    let number = run.subject.lookup(pool, shape, domain, address, &mut out);
    run.tally.answered("lookup by a lent shape", number);
    let found = shape_of(shape, &[]).and_then(|shape| lookup(pool, shape, domain, address));
    let what = format!("lookup of {address:#x} in domain {domain} by {shape:x?}");
    Expected::found(found).held(&what, number, &out)
}

fn one_listing(run: &mut Run, pool: &[u32], shape: &[u32]) -> Result<(), Difference> {
    let (from, length) = (run.rng.below(3), run.rng.index(20));
    let (mut runs, mut out) = (vec![MARK; length], run.lend());
    let number = run.subject.list(pool, shape, from, &mut runs, &mut out);
    run.tally.answered("listing by a lent shape", number);
    let answer = shape_of(shape, &[]).and_then(|shape| list(pool, shape));
    let count = answer.as_ref().map(|listed| [listed.len() as u32]).map_err(|refusal| *refusal);
    let what = format!("listing from {from} into {length} words by {shape:x?}");
    Expected::new(count).held(&what, number, &out)?;
    same_words(&what, &runs, &part(&answer.unwrap_or_default(), from, length))
}

/// A state of its layout's length, or sometimes of another.
fn resized(run: &mut Run, mut state: Vec<u32>) -> Vec<u32> {
    if run.rng.once_in(4) {
        let lengths = [0, SHAPE_WORDS, state.len() - 1, state.len() + 1];
        state.resize(run.rng.pick(&lengths), 0);
    }
    state
}

/// Which refusals a state of another length meets: 101 is due before 1.
fn note_lengths(run: &mut Run, shape: &[u32], states: &[(usize, usize)]) {
    if states.iter().any(|(length, must)| length != must) {
        run.tally.met(match shape_of(shape, &[]) {
            Ok(_) => "state of another length",
            Err(1) => "state of another length, and another form or a V",
            Err(_) => "state and shape of another length",
        });
    }
}

fn one_check(run: &mut Run, pool: &[u32], shape: &[u32]) -> Result<(), Difference> {
    let filled = states::buffer(&mut run.rng, 2);
    let mut buffer = resized(run, filled);
    let rng = &mut run.rng;
    let at = requests::address(rng);
    let address = if rng.once_in(4) { at } else { at & !3 };
    let access = Access { domain: rng.below(3), kind: rng.below(4), size: 4, address };
    let mut must = buffer.clone();
    let lengths = [(buffer.len(), BUFFER_WORDS)];
    note_lengths(run, shape, &lengths);
    let answer = shape_of(shape, &lengths).and_then(|shape| {
        let mut state = Buffer::from_words(&must);
        let answer = state.check(pool, shape, access);
        must = state.to_words();
        answer
    });
    let mut out = run.lend();
    let number = run.subject.check(pool, shape, &mut buffer, access, &mut out);
    run.tally.answered("check by a lent shape", number);
    let what = format!("{access:x?} by {shape:x?} with a buffer of {} words", buffer.len());
    Expected::new(answer.map(|verdict| [u32::from(verdict.pass), verdict.loads])).held(&what, number, &out)?;
    same_words(&what, &buffer, &must)
}

fn one_step(run: &mut Run, pool: &[u32], shape: &[u32]) -> Result<(), Difference> {
    let (set, calls) = (states::gates(&mut run.rng, 2), states::stack(&mut run.rng, 2));
    let (gates, mut stack) = (resized(run, set), resized(run, calls));
    let (address, target) = (states::gate_address(&mut run.rng), run.rng.below(12));
    let mut must = stack.clone();
    let lengths = [(gates.len(), GATES_WORDS), (stack.len(), STACK_WORDS)];
    note_lengths(run, shape, &lengths);
    let answer = shape_of(shape, &lengths).and_then(|shape| {
        let mut state = CallStack::from_words(&must);
        let answer = state.step(pool, shape, &Gates::from_words(&gates), address, target);
        must = state.to_words();
        answer
    });
    let mut out = run.lend();
    let step = Step { gates: &gates, stack: &mut stack, address, target };
    let number = run.subject.step(pool, shape, step, &mut out);
    run.tally.answered("step by a lent shape", number);
    let what = format!("step at {address:#x} by {shape:x?} with states of {lengths:?} words");
    Expected::new(answer.map(|pass| [u32::from(pass)])).held(&what, number, &out)?;
    same_words(&what, &stack, &must)
}
