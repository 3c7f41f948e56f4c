//! Kinds of calls, by what they do to the tables. The model tells, so that a kind says what the paper means by it.

use crate::call::{Asked, Call, Work};
use model::change;
use model::regions::{change_by, Regions};
use model::shape::Shape;
use model::state::{Owners, State};

/// Made, given up, and made where one was given up by the same change.
const MIDDLES: [&str; 3] =
    ["a middle table is made", "a middle table is given up", "a middle table takes the place of one given up"];
const LEAVES: [&str; 3] = ["a leaf is made", "a leaf is given up", "a leaf takes the place of one given up"];

/// What a call does; nothing where it is refused.
pub fn effect(call: &Call, pool: &[u32]) -> Vec<&'static str> {
    let states = match call.work {
        Work::Change(request) => change::change(pool, call.shape, request),
        Work::ChangeBy(Asked { caller, request, regions }) => {
            change_by(pool, call.shape, &Regions::from_words(regions), caller, request)
        }
        Work::Tidying => change::tidy(pool, call.shape),
    };
    let Ok((before, after)) = states else {
        return Vec::new();
    };
    let mut kinds = tables(MIDDLES, &before.middles, &after.middles);
    kinds.extend(tables(LEAVES, &before.leaves, &after.leaves));
    kinds.extend(sizes(call.shape, &before, &after));
    kinds
}

/// What becomes of the places of one height.
fn tables(kinds: [&'static str; 3], before: &Owners, after: &Owners) -> Vec<&'static str> {
    let moved: Vec<_> = before.iter().zip(after).filter(|(old, new)| old != new).collect();
    let made = moved.iter().any(|(_, new)| new.is_some());
    let given_up = moved.iter().any(|(old, _)| old.is_some());
    let taken = moved.iter().any(|(old, new)| old.is_some() && new.is_some());
    kinds.into_iter().zip([made, given_up, taken]).filter(|(_, met)| *met).map(|(kind, _)| kind).collect()
}

/// Small and full pools, and calls that give up several tables or store nothing.
fn sizes(shape: Shape, before: &State, after: &State) -> Vec<&'static str> {
    let in_use = |state: &State| state.middles.iter().chain(&state.leaves).flatten().count();
    let full = in_use(before) == (shape.middles + shape.leaves) as usize;
    let kinds = [
        ("the smallest pool", shape == Shape::new(1, 0, 0)),
        ("a pool with one place of each kind", shape == Shape::new(1, 1, 1)),
        ("the largest pool, all places in use", shape == Shape::new(4, 8, 64) && full),
        ("several tables are given up", in_use(before) > in_use(after) + 1),
        ("nothing is to be stored", before.words == after.words),
    ];
    kinds.into_iter().filter(|(_, met)| *met).map(|(kind, _)| kind).collect()
}
