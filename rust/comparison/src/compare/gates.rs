//! Gate sets, call stacks and fetch steps, on states in and out of order.

use super::{same_words, Expected, Run};
use crate::given::{shapes, states};
use crate::rng::Rng;
use crate::subject::{Step, LENGTH};
use crate::{hold, Difference};
use model::gates::{Gate, Gates, Kind, GATES_WORDS};
use model::shape::Shape;
use model::step::{CallStack, STACK_WORDS};

/// `count` gate sets, each under a number of settings and removals one after the other.
pub fn settings(run: &mut Run, count: usize) -> Result<(), Difference> {
    for _ in 0..count {
        let domains = 1 + run.rng.below(4);
        let mut gates = states::gates(&mut run.rng, domains);
        for _ in 0..60 {
            let d = if run.rng.once_in(20) { run.rng.pick(&[0, 5, u32::MAX]) } else { domains };
            match run.rng.below(16) {
                0 => wrong_set_lengths(run, d)?,
                1..=5 => one_removal(run, d, &mut gates)?,
                _ => one_setting(run, d, &mut gates)?,
            }
        }
    }
    Ok(())
}

fn place(rng: &mut Rng, domains: u32) -> (u32, u32) {
    let domain = if rng.once_in(20) { rng.pick(&[4, 5, u32::MAX]) } else { rng.below(domains.clamp(1, 4)) };
    let address = if rng.once_in(20) { rng.word() } else { states::gate_address(rng) };
    (domain, address)
}

fn one_setting(run: &mut Run, d: u32, gates: &mut [u32]) -> Result<(), Difference> {
    let (domain, address) = place(&mut run.rng, d);
    let destination = if run.rng.once_in(12) { run.rng.pick(&[d, 4, u32::MAX]) } else { run.rng.below(4) };
    let switch = run.rng.once_in(2);
    let mut must = Gates::from_words(gates);
    let held = must.count;
    let kind = if switch { Kind::Switch(destination) } else { Kind::Return };
    let answer = must.set(d, Gate { domain, address, kind });
    let (call, number) = if switch {
        ("setting a switch gate", run.subject.set_switch_gate(d, gates, domain, address, destination))
    } else {
        ("setting a return gate", run.subject.set_return_gate(d, gates, domain, address))
    };
    run.tally.answered(call, number);
    if number == 0 {
        run.tally.met(if must.count == held { "setting replaces a gate" } else { "setting adds a gate" });
    }
    let what = format!("{call} {destination:#x} at domain {domain}, {address:#x}, D {d}");
    held_number(&what, number, answer)?;
    same_words(&what, gates, &must.to_words())
}

fn one_removal(run: &mut Run, d: u32, gates: &mut [u32]) -> Result<(), Difference> {
    let (domain, address) = place(&mut run.rng, d);
    let mut must = Gates::from_words(gates);
    let answer = must.remove(d, domain, address);
    let number = run.subject.remove_gate(d, gates, domain, address);
    run.tally.answered("removing a gate", number);
    let what = format!("removing the gate at domain {domain}, {address:#x}, D {d}");
    held_number(&what, number, answer)?;
    same_words(&what, gates, &must.to_words())
}

pub(super) fn held_number(what: &str, number: u32, answer: Result<(), u32>) -> Result<(), Difference> {
    let must = answer.err().unwrap_or(0);
    hold!(number == must, "{what}: answers {number}, must be {must}");
    Ok(())
}

fn wrong_set_lengths(run: &mut Run, d: u32) -> Result<(), Difference> {
    let length = run.rng.pick(&[0, 192, 194, 257]);
    let mut words = vec![0; length];
    let numbers = [
        ("setting a switch gate", run.subject.set_switch_gate(d, &mut words, 0, 0, 1)),
        ("setting a return gate", run.subject.set_return_gate(d, &mut words, 0, 0)),
        ("removing a gate", run.subject.remove_gate(d, &mut words, 0, 0)),
    ];
    for (call, number) in numbers {
        run.tally.answered(call, number);
        hold!(number == LENGTH, "{call} in a set of another length: answers {number}");
    }
    hold!(words.iter().all(|word| *word == 0), "a set of another length was written");
    Ok(())
}

/// `count` pools with gates and a stack, each under a number of steps one after the other.
pub fn steps(run: &mut Run, count: usize) -> Result<(), Difference> {
    for turn in 0..count {
        let shape = shapes::any(&mut run.rng, turn);
        let pool = execute_pool(run, shape);
        let gates = states::gates(&mut run.rng, shape.domains);
        let mut stack = states::stack(&mut run.rng, shape.domains);
        for _ in 0..40 {
            let given = if run.rng.once_in(30) { shapes::wrong(&mut run.rng, shape) } else { shape };
            one_step(run, &pool, given, &gates, &mut stack)?;
        }
        wrong_state_lengths(run, &pool, shape)?;
    }
    Ok(())
}

/// A fresh pool whose first blocks let fetches pass in some domains, deny them in others, and are bad in a few.
fn execute_pool(run: &mut Run, shape: Shape) -> Vec<u32> {
    let mut pool = shape.fresh();
    for domain in 0..shape.domains as usize {
        let entry = match run.rng.below(8) {
            0 => 0,
            1 => 0x8000_0000,
            2 => 0x8000_AAAA,
            _ => 0x8000_FFFF,
        };
        pool[shape.root(domain)] = entry;
    }
    pool
}

fn one_step(run: &mut Run, pool: &[u32], shape: Shape, gates: &[u32], stack: &mut [u32]) -> Result<(), Difference> {
    let rng = &mut run.rng;
    let address = if rng.once_in(20) { rng.word() } else { states::gate_address(rng) };
    let target = if rng.once_in(20) { rng.word() } else { 4 * rng.below(3) };
    let held = Gates::from_words(gates);
    let mut must = CallStack::from_words(stack);
    let depth = must.depth;
    let answer = must.step(pool, shape, &held, address, target);
    let mut out = run.lend();
    let number = run.subject.step(pool, &shape.words(), Step { gates, stack, address, target }, &mut out);
    run.tally.answered("step", number);
    let what = format!("step at {address:#x} with target {target:#x} as {shape:?}");
    Expected::new(answer.map(|pass| [u32::from(pass)])).held(&what, number, &out)?;
    run.tally.met(match answer {
        Err(_) => "step is refused",
        Ok(false) => "step is denied",
        Ok(true) if must.depth > depth => "step switches",
        Ok(true) if must.depth < depth => "step returns",
        Ok(true) => "step passes without a gate",
    });
    same_words(&what, stack, &must.to_words())
}

fn wrong_state_lengths(run: &mut Run, pool: &[u32], shape: Shape) -> Result<(), Difference> {
    let right_gates = run.rng.once_in(2);
    let gates = vec![0; if right_gates { GATES_WORDS } else { run.rng.pick(&[0, 192, 194]) }];
    let mut stack = vec![0; if right_gates { run.rng.pick(&[0, 33, 35]) } else { STACK_WORDS }];
    let shape = if run.rng.once_in(2) { shapes::wrong(&mut run.rng, shape) } else { shape };
    let must = stack.clone();
    let mut out = run.lend();
    let step = Step { gates: &gates, stack: &mut stack, address: 0, target: 0 };
    let number = run.subject.step(pool, &shape.words(), step, &mut out);
    run.tally.answered("step", number);
    Expected::new::<1>(Err(LENGTH)).held("step with a state of another length", number, &out)?;
    same_words("a stack of another length", &stack, &must)
}
