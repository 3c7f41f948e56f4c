//! Programs that stand in for the library: wrong ones, which a watcher must see, and harmless ones, which it must let
//! pass. A watcher that cannot tell them apart would be worth nothing. Each write is one that no compiler joins or
//! leaves out.

use crate::call::{Call, Script, Store, Work};
use crate::watch::Program;
use comparison::subject::{Library, Subject};
use model::change::Request;
use std::hint::black_box;

/// What a wrong program does, what a watcher must say of it, and the program.
pub const WRONG: &[(&str, &str, Program)] = &[
    ("writes a word and writes it back before the call", "was made", written_back_before),
    ("writes a word and writes it back after the call", "was made", written_back_after),
    ("makes another change and undoes it before its own", "was made", other_change_first),
    ("swaps two stores", "is due", swapped),
    ("writes two words in one instruction", "one instruction changed the words", two_at_once),
    ("stops one store short", "it ended after", one_short),
    ("makes one store too many", "which are all", one_more),
    ("writes a word twice", "is due", twice),
    ("answers with another count", "number and result are", other_count),
];

pub const HARMLESS: &[(&str, Program)] = &[
    ("makes the call behind one more call", behind_a_call),
    ("reads words of the pool before the call", after_reading),
    ("makes the stores itself, in order", in_order),
];

fn write(pool: &mut [u32], store: Store) {
    if let Some(word) = pool.get_mut(store.at) {
        // SAFETY: it is a word of the pool.
        unsafe { std::ptr::write_volatile(word, store.value) }
    }
}

fn write_all(pool: &mut [u32], stores: &[Store]) {
    stores.iter().for_each(|store| write(pool, *store));
}

fn answer(script: &Script, out: &mut [u32]) -> u32 {
    out.iter_mut().for_each(|word| *word = script.result);
    script.number
}

/// The stores before, and from, the middle of the script.
fn halves(script: &Script) -> (&[Store], &[Store]) {
    script.stores.split_at(script.stores.len() / 2)
}

fn write_and_back(pool: &mut [u32]) {
    let was = pool.first().copied().unwrap_or(0);
    write(pool, Store { at: 0, value: !was });
    write(pool, Store { at: 0, value: was });
}

/// Each word of the pool is written with what it holds, and then the call is made.
pub fn written_as_they_are(call: &Call, _: &Script, pool: &mut [u32], out: &mut [u32]) -> u32 {
    for at in 0..pool.len() {
        let value = pool[at];
        write(pool, Store { at, value });
    }
    call.make(pool, out)
}

fn written_back_before(call: &Call, _: &Script, pool: &mut [u32], out: &mut [u32]) -> u32 {
    write_and_back(pool);
    call.make(pool, out)
}

fn written_back_after(call: &Call, _: &Script, pool: &mut [u32], out: &mut [u32]) -> u32 {
    let number = call.make(pool, out);
    write_and_back(pool);
    number
}

/// Only where the allowance is the greatest. All is undone in a pool in which nobody had a right.
fn other_change_first(call: &Call, _: &Script, pool: &mut [u32], out: &mut [u32]) -> u32 {
    if let (Work::Change(asked), u32::MAX) = (call.work, call.allowance) {
        for right in [3, 0] {
            Library.change(pool, &call.shape.words(), Request { right, ..asked }, u32::MAX, &mut []);
        }
    }
    call.make(pool, out)
}

fn swapped(_: &Call, script: &Script, pool: &mut [u32], out: &mut [u32]) -> u32 {
    let (before, rest) = halves(script);
    write_all(pool, before);
    if let [one, other, rest @ ..] = rest {
        write_all(pool, &[*other, *one]);
        write_all(pool, rest);
    }
    answer(script, out)
}

/// The first two neighbouring words that are stored one after the other are stored as one double word.
fn two_at_once(_: &Call, script: &Script, pool: &mut [u32], out: &mut [u32]) -> u32 {
    let mut stores = script.stores.iter().peekable();
    while let Some(store) = stores.next() {
        let next = stores.next_if(|next| next.at == store.at + 1 && store.at % 2 == 0 && next.at < pool.len());
        match next {
            Some(next) => {
                let both = [store.value, next.value];
                // SAFETY: both words are of the pool, which begins at a page.
                unsafe { std::ptr::write_volatile(pool.as_mut_ptr().add(store.at).cast(), both_words(both)) }
            }
            None => write(pool, *store),
        }
    }
    answer(script, out)
}

/// Two words as they lie in memory.
fn both_words([low, high]: [u32; 2]) -> u64 {
    u64::from(low) | u64::from(high) << 32
}

fn one_short(_: &Call, script: &Script, pool: &mut [u32], out: &mut [u32]) -> u32 {
    if let [stores @ .., _] = &script.stores[..] {
        write_all(pool, stores);
    }
    answer(script, out)
}

fn one_more(_: &Call, script: &Script, pool: &mut [u32], out: &mut [u32]) -> u32 {
    write_all(pool, &script.stores);
    write(pool, Store { at: 1, value: 0x8000_1234 });
    answer(script, out)
}

/// A word in the middle is first given another value.
fn twice(_: &Call, script: &Script, pool: &mut [u32], out: &mut [u32]) -> u32 {
    let (before, rest) = halves(script);
    write_all(pool, before);
    if let [store, ..] = rest {
        write(pool, Store { at: store.at, value: !store.value });
    }
    write_all(pool, rest);
    answer(script, out)
}

fn other_count(_: &Call, script: &Script, pool: &mut [u32], out: &mut [u32]) -> u32 {
    write_all(pool, &script.stores);
    let number = answer(script, out);
    out.iter_mut().for_each(|word| *word = word.wrapping_add(1));
    number
}

#[inline(never)]
fn behind_a_call(call: &Call, _: &Script, pool: &mut [u32], out: &mut [u32]) -> u32 {
    let make: fn(&Call, &mut [u32], &mut [u32]) -> u32 = Call::make;
    black_box(make)(call, pool, out)
}

fn after_reading(call: &Call, _: &Script, pool: &mut [u32], out: &mut [u32]) -> u32 {
    let sum = pool.iter().step_by(97).fold(0u32, |sum, word| sum.wrapping_add(*word));
    black_box(sum);
    call.make(pool, out)
}

fn in_order(_: &Call, script: &Script, pool: &mut [u32], out: &mut [u32]) -> u32 {
    write_all(pool, &script.stores);
    answer(script, out)
}
