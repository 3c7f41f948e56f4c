//! The loads of calls that read the pool, on machine code: the words of the walk, each once, and as many as is
//! answered.

use comparison::given::{pools, requests, shapes};
use comparison::rng::Rng;
use comparison::subject::{Library, Step, Subject};
use comparison::tally::{answers, Tally};
use model::buffer::{Access, BUFFER_WORDS};
use model::gates::GATES_WORDS;
use model::shape::{Shape, TABLE};
use model::step::STACK_WORDS;
use model::walk::is_eight_rights;
use std::hint::black_box;
use stepping::loads::{loads, walk, watch_lookup, Lookup, Walker};

/// A pool that is sound, damaged, or of another length than its shape's.
fn any_pool(rng: &mut Rng, turn: usize, shape: Shape) -> Vec<u32> {
    let mut pool = pools::sound(rng, shape);
    match turn % 8 {
        4..=6 => pools::damage(rng, &mut pool, shape),
        7 => pool.push(0),
        _ => {}
    }
    pool
}

/// The number of an entry in a table, mostly of one that leads or is bad.
fn entry(rng: &mut Rng, table: &[u32]) -> usize {
    let odd: Vec<usize> = (0..table.len()).filter(|at| !is_eight_rights(table[*at])).collect();
    if odd.is_empty() || rng.once_in(4) {
        return rng.index(table.len());
    }
    rng.pick(&odd)
}

/// A lookup whose walk mostly goes down, or any.
fn any_lookup(rng: &mut Rng, pool: &[u32], shape: Shape) -> Lookup {
    if shape.fits(pool).is_err() || rng.once_in(6) {
        return Lookup { shape, domain: rng.below(5), address: requests::address(rng) };
    }
    let domain = rng.below(shape.domains);
    let root = shape.root(domain as usize);
    let block = entry(rng, &pool[root..root + TABLE]);
    let page = match shape.middle_at(pool[root + block]) {
        Some(place) => entry(rng, &pool[shape.middle(place)..shape.middle(place) + TABLE]),
        None => 0,
    };
    Lookup { shape, domain, address: (block << 22 | page << 12) as u32 | rng.below(4096) }
}

fn library(asked: &Lookup, pool: &[u32], out: &mut [u32]) -> u32 {
    Library.lookup(pool, &asked.shape.words(), asked.domain, asked.address, out)
}

fn accept(tally: &Tally, kinds: &[String]) {
    println!("{tally}");
    let missing = tally.missing(kinds);
    assert!(missing.is_empty(), "never met: {missing:?}");
}

/// Tries a test on lookups of many pools.
fn each_lookup(seed: u64, mut test: impl FnMut(&mut Rng, &[u32], &Lookup)) {
    let mut rng = Rng::new(seed);
    for turn in 0..320 {
        let shape = shapes::any(&mut rng, turn);
        let pool = any_pool(&mut rng, turn / 2, shape);
        for _ in 0..4 {
            let asked = any_lookup(&mut rng, &pool, shape);
            test(&mut rng, &pool, &asked);
        }
    }
}

#[test]
#[cfg_attr(not(linked), ignore = "no library is linked that could be watched")]
fn a_lookup_loads_the_words_of_the_walk() {
    let mut tally = Tally::default();
    each_lookup(1, |_, pool, asked| {
        let made = watch_lookup(library, asked, pool).unwrap_or_else(|difference| panic!("{}", difference.0));
        tally.answered("lookup", made.number);
        tally.met(&format!("answer {} after {} loads", made.number, made.touched.len()));
    });
    let loads = [(0, 1), (0, 2), (0, 3), (6, 1), (6, 2)].map(|(number, n)| format!("answer {number} after {n} loads"));
    accept(&tally, &[answers("lookup", &[0, 1, 2, 6]), loads.to_vec()].concat());
}

/// A miss loads the words of the walk and says how many. The second check of an address is answered by a slot,
/// without a load, unless the first was refused.
#[test]
#[cfg_attr(not(linked), ignore = "no library is linked that could be watched")]
fn a_check_loads_the_words_of_the_walk_or_none() {
    let mut tally = Tally::default();
    each_lookup(2, |rng, pool, asked| {
        let Lookup { shape, domain, address } = *asked;
        let access = Access { domain, kind: rng.below(3), size: 4, address: address & !3 };
        let mut buffer = vec![0; BUFFER_WORDS];
        for name in ["first check", "second check"] {
            let lent = &mut buffer.clone()[..];
            let made = loads(pool, |pool, out| Library.check(pool, &shape.words(), lent, access, &mut out[..2]));
            let made = made.unwrap_or_else(|told| panic!("{told}"));
            let hit = name == "second check" && made.number == 0;
            let words = if hit { Vec::new() } else { walk(pool, shape, domain, access.address) };
            assert_eq!(made.touched, words, "{name}: {access:x?} of {shape:?}");
            assert!(made.number != 0 || made.results[1] == words.len() as u32, "{access:x?} of {shape:?} miscounts");
            tally.met(&format!("{name} answers {} after {} loads", made.number, words.len()));
            Library.check(pool, &shape.words(), &mut buffer, access, &mut []);
        }
    });
    let kinds = [1, 2, 3].map(|n| format!("first check answers 0 after {n} loads"));
    accept(&tally, &[kinds.to_vec(), vec!["second check answers 0 after 0 loads".to_string()]].concat());
}

/// A step without a gate checks its fetch by one walk.
#[test]
#[cfg_attr(not(linked), ignore = "no library is linked that could be watched")]
fn a_step_loads_the_words_of_the_walk() {
    let mut tally = Tally::default();
    each_lookup(3, |_, pool, asked| {
        let Lookup { shape, domain, address } = *asked;
        let (gates, mut stack) = (vec![0; GATES_WORDS], vec![0; STACK_WORDS]);
        stack[STACK_WORDS - 1] = domain;
        let step = Step { gates: &gates, stack: &mut stack, address: address & !3, target: 0 };
        let made = loads(pool, |pool, out| Library.step(pool, &shape.words(), step, &mut out[..1]));
        let made = made.unwrap_or_else(|told| panic!("{told}"));
        assert_eq!(made.touched, walk(pool, shape, domain, address), "a step at {address:#x} of {shape:?}");
        tally.met(&format!("step answers {} after {} loads", made.number, made.touched.len()));
    });
    accept(&tally, &[1, 2, 3].map(|n| format!("step answers 0 after {n} loads")));
}

fn walks_twice(asked: &Lookup, pool: &[u32], out: &mut [u32]) -> u32 {
    library(asked, pool, out);
    library(asked, pool, out)
}

fn reads_one_more(asked: &Lookup, pool: &[u32], out: &mut [u32]) -> u32 {
    black_box(pool.last().copied());
    library(asked, pool, out)
}

fn looks_at_another_address(asked: &Lookup, pool: &[u32], out: &mut [u32]) -> u32 {
    library(&Lookup { address: asked.address ^ 1 << 31, ..*asked }, pool, out)
}

fn looks_at_the_next_block(asked: &Lookup, pool: &[u32], out: &mut [u32]) -> u32 {
    black_box(pool[(asked.address >> 22) as usize + 1]);
    library(asked, pool, out)
}

fn gives_three_words(asked: &Lookup, pool: &[u32], out: &mut [u32]) -> u32 {
    library(asked, pool, &mut out[..3])
}

/// One more call that reads nothing is harmless.
#[inline(never)]
fn behind_a_call(asked: &Lookup, pool: &[u32], out: &mut [u32]) -> u32 {
    black_box(library as Walker)(asked, pool, out)
}

#[test]
#[cfg_attr(not(linked), ignore = "no library is linked that could be watched")]
fn every_wrong_walk_is_seen() {
    let asked = Lookup { shape: Shape::new(1, 1, 1), domain: 0, address: 0x1000 };
    let pool = asked.shape.fresh();
    for (what, walker) in [
        ("walks twice", walks_twice as Walker),
        ("reads one more word", reads_one_more),
        ("looks at another address", looks_at_another_address),
        ("looks at the next block", looks_at_the_next_block),
        ("gives three words", gives_three_words),
    ] {
        assert!(watch_lookup(walker, &asked, &pool).is_err(), "a lookup that {what} is let pass");
    }
    let refused = Lookup { domain: 1, ..asked };
    assert!(watch_lookup(gives_three_words, &refused, &pool).is_err(), "a refusal of three words is let pass");
    assert!(watch_lookup(library, &refused, &pool).is_ok());
    assert!(watch_lookup(behind_a_call, &asked, &pool).is_ok());
}
