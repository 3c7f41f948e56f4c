//! Every cut of every change of a set of series, and every cut of the tidying after it, held against the paper's
//! sentences.

use super::series::{finished_change, fresh, lookups, request};
use super::{same_words, Expected, Run, MARK};
use crate::given::requests;
use crate::{hold, Difference};
use model::change::{differing, tidy, Request};
use model::rights::{Rights, WORDS};
use model::shape::Shape;
use model::state::State;
use model::walk::read;

/// A series of any changes with all their cuts.
pub fn far(run: &mut Run, shape: Shape, length: usize) -> Result<(), Difference> {
    let mut last = None;
    let next = |run: &mut Run| {
        let request = request(run, shape, last);
        last = Some(request);
        request
    };
    cuts(run, shape, length, next)
}

/// A series of changes near each other with all their cuts.
pub fn near(run: &mut Run, shape: Shape, length: usize) -> Result<(), Difference> {
    cuts(run, shape, length, |run| requests::near(&mut run.rng, shape.domains))
}

/// Pairs of changes of which the second passes through pools with a table that its rights do not want.
pub fn unwanted(run: &mut Run) -> Result<(), Difference> {
    let set = |start, length, right| Request { domain: 0, start, length, right };
    let pairs = [
        // the first sub-block of a page becomes equal before the second one is divided
        [set(0x100, 0x100, 1), set(0, 0x300, 1)],
        // the same at the middle level, with a leaf given up and another made
        [set(0x100, 0x100, 1), set(0, 0x8_0100, 1)],
        [set(0x4_0000, 0x4_0000, 3), set(0, 0xC_0000, 3)],
        // over the edge of two blocks, and a leaf that moves from page to page
        [set(0x3F_F000, 0x2000, 2), set(0x3F_F100, 0x40_1000, 2)],
        [set(0x1000, 64, 2), set(0, 0x8_0040, 0)],
        [set(0x10, 0x1010, 1), set(0, 0x8_0200, 1)],
    ];
    for [first, second] in pairs {
        let mut turn = 0;
        cuts(run, Shape::new(1, 2, 3), 2, |_| {
            turn += 1;
            [first, second][turn - 1]
        })?;
    }
    Ok(())
}

/// A series in which each change that is not refused is first cut after every number of stores, on copies.
fn cuts(
    run: &mut Run,
    shape: Shape,
    length: usize,
    mut next: impl FnMut(&mut Run) -> Request,
) -> Result<(), Difference> {
    let mut pool = fresh(run, shape)?;
    let mut state = State::fresh(shape);
    for _ in 0..length {
        let request = next(run);
        if let Ok(after) = state.changed(request) {
            every_cut(run, &state, &after, request)?;
        }
        state = finished_change(run, &mut pool, state, request)?;
    }
    Ok(())
}

/// The cuts of one change, from allowance 0 to the count.
pub fn every_cut(run: &mut Run, before: &State, after: &State, request: Request) -> Result<(), Difference> {
    let count = differing(&before.words, &after.words);
    let mut reached_before = before.words.clone();
    for allowance in 0..=count {
        let what = format!("{request:x?} on {:?} with allowance {allowance} of {count}", before.shape);
        let mut pool = before.words.clone();
        let mut out = vec![MARK; 2];
        let number = run.subject.change(&mut pool, &before.shape.words(), request, allowance, &mut out);
        run.tally.answered("change with an allowance", number);
        Expected::stores(count, allowance).held(&what, number, &out)?;
        let cut = held_cut(&what, before, after, allowance, &pool)?;
        among(&what, before, after, &reached_before, &pool)?;
        note(run, before, after, &cut);
        every_tidying_cut(run, &what, &cut)?;
        if allowance % 4 == 3 {
            lookups(run, &pool, &cut, request)?;
        }
        if allowance % 64 == 7 {
            again(run, &what, &cut, after, request)?;
        }
        reached_before = pool;
    }
    Ok(())
}

/// Exactly `reached` of the differing words have their finished value and the others their old one; the pool is sound;
/// each right is the old or the new one (which are the same outside the region).
fn held_cut(what: &str, before: &State, after: &State, reached: u32, pool: &[u32]) -> Result<State, Difference> {
    let mut finished = 0;
    for (at, word) in pool.iter().enumerate() {
        let (old, new) = (before.words[at], after.words[at]);
        hold!(*word == old || *word == new, "{what}: word {at} is {word:#x}, neither old nor finished");
        finished += u32::from(old != new && *word == new);
    }
    hold!(finished == reached, "{what}: {finished} words are finished");
    let Some(cut) = read(pool, before.shape) else {
        crate::differ!("{what}: the pool is not sound");
    };
    for domain in 0..cut.rights.len() {
        let old_or_new = between(&before.rights[domain], &after.rights[domain], &cut.rights[domain]);
        if let Err(word) = old_or_new {
            crate::differ!("{what}: in domain {domain} word {word:#x} has a right that nobody set");
        }
    }
    Ok(cut)
}

/// Whether each word has its old or its new right; an error names a word that has not.
fn between(old: &Rights, new: &Rights, now: &Rights) -> Result<(), u32> {
    let mut word = 0;
    while word < WORDS {
        let (old, new, now) = (old.piece(word), new.piece(word), now.piece(word));
        if now.right != old.right && now.right != new.right {
            return Err(word);
        }
        word = old.end.min(new.end).min(now.end);
    }
    Ok(())
}

/// The words reached with one store fewer are among those reached now.
fn among(what: &str, before: &State, after: &State, fewer: &[u32], pool: &[u32]) -> Result<(), Difference> {
    for (at, word) in pool.iter().enumerate() {
        let had = fewer[at] != before.words[at];
        hold!(!had || *word == after.words[at], "{what}: word {at} was reached with fewer stores and is not now");
    }
    Ok(())
}

fn note(run: &mut Run, before: &State, after: &State, cut: &State) {
    let kind = if !cut.is_settled() {
        "cut: not settled"
    } else if cut.rights == before.rights {
        "cut: old rights"
    } else if cut.rights == after.rights {
        "cut: new rights"
    } else {
        "cut: some words old, some new"
    };
    run.tally.met(kind);
}

/// A tidying of a sound pool with every allowance up to its count: same rights, and the finished pool at the end.
pub fn every_tidying_cut(run: &mut Run, after_what: &str, before: &State) -> Result<(), Difference> {
    let after = before.tidied();
    let count = differing(&before.words, &after.words);
    let mut reached_before = before.words.clone();
    for allowance in 0..=count {
        let what = format!("tidying with allowance {allowance} of {count} after {after_what}");
        let mut pool = before.words.clone();
        let mut out = vec![MARK; 2];
        let number = run.subject.tidy(&mut pool, &before.shape.words(), allowance, &mut out);
        run.tally.answered("tidying with an allowance", number);
        Expected::stores(count, allowance).held(&what, number, &out)?;
        let cut = held_cut(&what, before, &after, allowance, &pool)?;
        hold!(cut.rights == before.rights, "{what}: another right");
        among(&what, before, &after, &reached_before, &pool)?;
        hold!(allowance < count || cut.is_settled(), "{what}: done and not settled");
        reached_before = pool;
    }
    same_words("tidying", &reached_before, &after.words)
}

/// After the tidying the change can be made again, unless there is no room, and then has its rights.
fn again(run: &mut Run, what: &str, cut: &State, after: &State, request: Request) -> Result<(), Difference> {
    let what = format!("again {what}");
    let (_, tidied) = tidy(&cut.words, cut.shape).expect("a cut is sound");
    let mut pool = cut.words.clone();
    run.subject.tidy(&mut pool, &cut.shape.words(), u32::MAX, &mut []);
    same_words(&what, &pool, &tidied.words)?;
    lookups(run, &pool, cut, request)?;
    let finished = finished_change(run, &mut pool, tidied, request)?;
    hold!(finished.rights == after.rights, "{what}: other rights than without a cut");
    run.tally.met("cut, tidied and made again");
    Ok(())
}
