//! The wrapper's walks over ranges of bytes, on generated pools: beside the listing, and beside the model.

use comparison::given::{pools, requests, shapes};
use comparison::rng::Rng;
use comparison::tally::Tally;
use goleuthan::{Refusal, Right, Run, Stretch, Table};
use model::shape::Shape;
use model::walk::lookup;
use std::ops::RangeInclusive;

fn table(pool: &mut [u32], shape: Shape) -> Table<'_> {
    Table::resume(pool, goleuthan::Shape::from_words(shape.words()))
}

/// A sound pool of one of the shapes by turns, some of them fresh or crowded.
fn sound(rng: &mut Rng, turn: usize) -> (Shape, Vec<u32>) {
    let shape = shapes::any(rng, turn);
    let pool = match turn % 8 {
        1 => shape.fresh(),
        5 if shape.middles > 0 => pools::crowded(rng, shape),
        _ => pools::sound(rng, shape),
    };
    (shape, pool)
}

/// The stretches of a range that the model finds, each from the address after the one before; a refusal is the last.
fn by_model(pool: &[u32], shape: Shape, domain: u32, bytes: RangeInclusive<u32>) -> Vec<Result<[u32; 3], u32>> {
    let mut stretches = Vec::new();
    let mut next = Some(*bytes.start());
    while let Some(address) = next.filter(|address| address <= bytes.end()) {
        let found = lookup(pool, shape, domain, address);
        next = found.ok().and_then(|found| found.last.checked_add(1));
        stretches.push(found.map(|found| [address, found.last.min(*bytes.end()), found.right]));
    }
    stretches
}

fn numbers(walked: Result<Stretch, Refusal>) -> Result<[u32; 3], u32> {
    walked
        .map(|stretch| [stretch.first_byte, stretch.last_byte, stretch.right as u32])
        .map_err(|refusal| refusal.number())
}

/// The runs of a domain that its stretches make once equal neighbours are joined.
fn joined(domain: u32, stretches: impl Iterator<Item = Stretch>) -> Vec<Run> {
    let mut runs: Vec<Run> = Vec::new();
    let mut next = Some(0);
    for Stretch { right, first_byte, last_byte } in stretches {
        assert_eq!(Some(first_byte), next, "a stretch begins after the one before");
        next = last_byte.checked_add(1);
        match runs.last_mut() {
            Some(run) if run.right == right => run.last_byte = last_byte,
            _ => runs.push(Run { domain, first_byte, last_byte, right }),
        }
    }
    assert_eq!(next, None, "the last one ends with the memory");
    runs.retain(|run| run.right != Right::None);
    runs
}

#[test]
fn stretches_joined_are_the_runs() {
    let (mut rng, mut tally) = (Rng::new(41), Tally::default());
    for turn in 0..56 {
        let (shape, mut pool) = sound(&mut rng, turn);
        let table = table(&mut pool, shape);
        let walk = |domain| table.stretches(domain, ..).map(|stretch| stretch.expect("the pool is sound"));
        let runs: Vec<Run> = (0..shape.domains).flat_map(|domain| joined(domain, walk(domain))).collect();
        assert!(table.runs().as_ref() == Ok(&runs), "pool {turn} of {shape:?}");
        tally.met(match runs.len() {
            0 => "no run",
            1..1000 => "fewer than 1,000 runs",
            _ => "1,000 runs or more",
        });
    }
    println!("{tally}");
    let kinds = ["no run", "fewer than 1,000 runs", "1,000 runs or more"].map(str::to_string);
    assert_eq!(tally.missing(&kinds), Vec::<String>::new());
}

#[test]
fn a_walk_has_as_many_items_as_there_are_stretches() {
    let (mut rng, mut tally) = (Rng::new(42), Tally::default());
    for turn in 0..200 {
        let (shape, mut pool) = sound(&mut rng, turn);
        if turn % 4 == 3 {
            pools::damage(&mut rng, &mut pool, shape);
        }
        let domain = if rng.once_in(8) { shape.domains } else { rng.below(shape.domains) };
        for _ in 0..4 {
            let (one, other) = (requests::address(&mut rng), requests::address(&mut rng));
            let bytes = one.min(other)..=if rng.once_in(4) { u32::MAX } else { one.max(other) };
            let must = by_model(&pool, shape, domain, bytes.clone());
            let table = table(&mut pool, shape);
            let walked: Vec<_> = table.stretches(domain, bytes.clone()).map(numbers).collect();
            assert!(walked == must, "{bytes:x?} in domain {domain} of pool {turn}, {shape:?}");
            let end = must.last().expect("the range is not empty").map_or_else(|refusal| refusal, |_| 0);
            tally.met(&format!("walk ends with {end}, to the end of memory {}", *bytes.end() == u32::MAX));
            tally.met(if must.len() == 1 { "walk of one item" } else { "walk of several items" });
        }
    }
    println!("{tally}");
    let ends = [(0, true), (0, false), (2, true), (2, false), (6, true), (6, false)];
    let ends = ends.map(|(end, all)| format!("walk ends with {end}, to the end of memory {all}"));
    let kinds = [ends.to_vec(), vec!["walk of one item".to_string(), "walk of several items".to_string()]].concat();
    assert_eq!(tally.missing(&kinds), Vec::<String>::new());
}
