//! The cases: each makes its pool once and gives a body that runs it a number of times.

use crate::callers::{by_all, by_owner, by_refused};
use crate::direct::Direct;
use comparison::given::pools;
use comparison::rng::Rng;
use comparison::subject::{Library, Subject, Twin};
use model::buffer::Access;
use model::change::Request;
use model::shape::Shape;
use std::hint::black_box;

/// Runs a case this many times.
pub type Body = Box<dyn FnMut(u64)>;

pub struct Case {
    pub name: &'static str,
    pub says: &'static str,
    pub library: fn(&'static Library) -> Body,
    pub twin: fn(&'static Twin) -> Body,
}

/// A case, for both subjects.
macro_rules! case {
    ($name:ident, $says:literal) => {
        Case { name: stringify!($name), says: $says, library: $name, twin: $name }
    };
}

pub const CASES: &[Case] = &[
    case!(lookup_root, "lookup, decided in the root"),
    case!(lookup_middle, "lookup, decided in a middle table"),
    case!(lookup_leaf, "lookup, decided in a leaf"),
    case!(lookup_word, "lookup, decided in a leaf whose words differ, a stretch of one word"),
    case!(check_first, "check, hit in slot 0"),
    case!(check_last, "check, hit in slot 63"),
    case!(check_miss, "check, miss of 64 slots, decided in the root"),
    case!(change_word_small, "change of one word in a leaf, smallest pool that has one"),
    case!(change_word, "change of one word in a leaf, pool D 4, M 8, L 64"),
    case!(change_page, "change of a page in a middle table, pool D 4, M 8, L 64"),
    case!(change_gigabyte, "change of 1 GB, 256 stores, pool D 4, M 8, L 64"),
    case!(change_edges, "change that makes two middle tables and two leaves, and its undoing"),
    case!(change_full, "change that makes the last free leaf of an almost full pool, and its undoing"),
    case!(change_refused, "change refused 8 on a full pool"),
    case!(by_owner, "change of one word by its owner, the last of 64 regions, pool D 4, M 8, L 64"),
    case!(by_all, "change by a caller over 64 regions and the words between them, 127 stretches"),
    case!(by_refused, "change by a caller refused 19 for the last of 127 stretches"),
    case!(tidy_after_cut, "tidying after a cut, pool D 4, M 8, L 64"),
    case!(sound_full, "tidying of a settled full pool (soundness, and each table looked at; no store)"),
    case!(list_count, "listing of a full pool of about 37,000 runs, counted alone"),
    case!(list_write, "listing of a full pool of about 37,000 runs, written"),
];

const SMALL: Shape = Shape::new(1, 1, 1);
pub const FULL: Shape = Shape::new(4, 8, 64);
const SMALL_WORDS: &[u32] = &SMALL.words();
pub const FULL_WORDS: &[u32] = &FULL.words();
pub const ENOUGH: u32 = u32::MAX;

fn set(subject: &impl Subject, pool: &mut [u32], shape: Shape, request: Request) {
    let number = subject.change(pool, &shape.words(), request, ENOUGH, &mut []);
    assert_eq!(number, 0, "{request:?}");
}

pub fn request(domain: u32, start: u32, length: u32, right: u32) -> Request {
    Request { domain, start, length, right }
}

/// A word in each of 63 pages, over eight blocks and all domains.
pub fn words_set() -> impl Iterator<Item = Request> {
    (0..63)
        .map(|page| (page % 8, page / 8))
        .map(|(block, index)| request(block % 4, (block << 22) + (index << 16), 4, 2))
}

/// Every place but one leaf in use, settled.
pub fn almost_full(subject: &impl Subject) -> Vec<u32> {
    let mut pool = FULL.fresh();
    words_set().for_each(|request| set(subject, &mut pool, FULL, request));
    pool
}

/// A pool with 64 bytes of one right, and then 64 whose words have the four rights by turns.
fn looked_up_in(subject: &impl Subject) -> Vec<u32> {
    let mut pool = SMALL.fresh();
    set(subject, &mut pool, SMALL, request(0, 0x1000, 64, 2));
    (0..16).for_each(|word| set(subject, &mut pool, SMALL, request(0, 0x1040 + 4 * word, 4, word % 4)));
    pool
}

/// Addresses by the entry that decides; the last one's stretch is a word.
const ROOT: u32 = 0x40_0000;
const MIDDLE: u32 = 0x2000;
const LEAF: u32 = 0x103C;
const WORD: u32 = 0x1064;

fn lookup<S: Direct>(subject: &'static S, address: u32) -> Body {
    let pool = looked_up_in(subject);
    let mut out = [0; 5];
    Box::new(move |times| {
        for _ in 0..times {
            black_box(S::look(black_box(&pool), SMALL_WORDS, 0, black_box(address), &mut out));
        }
    })
}

fn lookup_root<S: Direct>(subject: &'static S) -> Body {
    lookup(subject, ROOT)
}

fn lookup_middle<S: Direct>(subject: &'static S) -> Body {
    lookup(subject, MIDDLE)
}

fn lookup_leaf<S: Direct>(subject: &'static S) -> Body {
    lookup(subject, LEAF)
}

fn lookup_word<S: Direct>(subject: &'static S) -> Body {
    lookup(subject, WORD)
}

/// Checks of loads at addresses by turns.
fn check<S: Direct>(_: &'static S, mut buffer: Vec<u32>, blocks: u32) -> Body {
    let pool = SMALL.fresh();
    let mut out = [0; 2];
    let mut turn = 0;
    Box::new(move |times| {
        for _ in 0..times {
            turn = (turn + 1) % blocks;
            let access = Access { domain: 0, kind: 0, size: 4, address: turn << 22 };
            black_box(S::verdict(black_box(&pool), SMALL_WORDS, &mut buffer, black_box(access), &mut out));
        }
    })
}

/// A buffer whose slots hold blocks that no check here asks for.
fn others() -> Vec<u32> {
    (0..64).flat_map(|i| [0, 1, (512 + i) << 22, 0x8000_0000]).chain([0]).collect()
}

/// The same, but for one slot that holds the first block.
fn buffer_with(slot: usize) -> Vec<u32> {
    let mut buffer = others();
    buffer[4 * slot..4 * slot + 4].copy_from_slice(&[0, 1, 0, 0x8000_5555]);
    buffer
}

fn check_first<S: Direct>(subject: &'static S) -> Body {
    check(subject, buffer_with(0), 1)
}

fn check_last<S: Direct>(subject: &'static S) -> Body {
    check(subject, buffer_with(63), 1)
}

/// More blocks by turns than there are slots: each check misses.
fn check_miss<S: Direct>(subject: &'static S) -> Body {
    check(subject, others(), 128)
}

/// A change by turns with two rights, or with a change that undoes it.
pub fn by_turns<S: Subject>(
    subject: &'static S,
    mut pool: Vec<u32>,
    shape: Shape,
    mut requests: [Request; 2],
    calls: u64,
) -> Body {
    let (shape, mut out) = (shape.words(), [0]);
    Box::new(move |times| {
        for _ in 0..times * calls {
            let number = subject.change(&mut pool, &shape, black_box(requests[0]), ENOUGH, &mut out);
            assert_eq!(number, 0);
            requests.swap(0, 1);
        }
    })
}

pub fn two_rights(start: u32, length: u32) -> [Request; 2] {
    [request(0, start, length, 1), request(0, start, length, 2)]
}

fn change_word_small<S: Subject>(subject: &'static S) -> Body {
    let mut pool = SMALL.fresh();
    set(subject, &mut pool, SMALL, request(0, 0x1000, 64, 3));
    by_turns(subject, pool, SMALL, two_rights(0x1004, 4), 1)
}

fn change_word<S: Subject>(subject: &'static S) -> Body {
    let pool = almost_full(subject);
    by_turns(subject, pool, FULL, two_rights(0x100, 4), 1)
}

fn change_page<S: Subject>(subject: &'static S) -> Body {
    let pool = almost_full(subject);
    by_turns(subject, pool, FULL, two_rights(0x3000, 4096), 1)
}

fn change_gigabyte<S: Subject>(subject: &'static S) -> Body {
    let pool = almost_full(subject);
    by_turns(subject, pool, FULL, two_rights(1 << 31, 1 << 30), 1)
}

fn change_edges<S: Subject>(subject: &'static S) -> Body {
    let make = request(0, 0x3F_F004, 0x80_1000, 2);
    let undo = request(0, 0, 0x100_0000, 0);
    by_turns(subject, FULL.fresh(), FULL, [make, undo], 2)
}

fn change_full<S: Subject>(subject: &'static S) -> Body {
    let pool = almost_full(subject);
    let make = request(3, (7 << 22) + 0x20_0004, 4, 2);
    by_turns(subject, pool, FULL, [make, Request { right: 0, ..make }], 2)
}

fn change_refused<S: Subject>(subject: &'static S) -> Body {
    let mut pool = almost_full(subject);
    set(subject, &mut pool, FULL, request(3, (7 << 22) + 0x20_0004, 4, 2));
    let more = request(2, (6 << 22) + 0x20_0004, 4, 2);
    let mut out = [0];
    Box::new(move |times| {
        for _ in 0..times {
            assert_eq!(subject.change(&mut pool, FULL_WORDS, black_box(more), ENOUGH, &mut out), 8);
        }
    })
}

/// A pool that a cut left with a table that is not wanted; before each run the words that a tidying stores
/// are put back.
fn tidy_after_cut<S: Subject>(subject: &'static S) -> Body {
    let mut cut = almost_full(subject);
    let page = 0x3F_0000;
    set(subject, &mut cut, FULL, request(0, page + 0x100, 0x100, 1));
    assert_eq!(subject.change(&mut cut, FULL_WORDS, request(0, page, 0x300, 1), 4, &mut []), 100);
    let mut pool = cut.clone();
    let mut out = [0];
    assert_eq!(subject.tidy(&mut pool, FULL_WORDS, ENOUGH, &mut out), 0);
    let stored: Vec<(usize, u32)> = cut.into_iter().enumerate().filter(|&(k, word)| word != pool[k]).collect();
    Box::new(move |times| {
        for _ in 0..times {
            stored.iter().for_each(|&(k, word)| pool[k] = word);
            assert_eq!(subject.tidy(&mut pool, FULL_WORDS, ENOUGH, &mut out), 0);
            assert_eq!(out[0], 1);
        }
    })
}

fn sound_full<S: Subject>(subject: &'static S) -> Body {
    let mut pool = almost_full(subject);
    set(subject, &mut pool, FULL, request(3, (7 << 22) + 0x20_0004, 4, 2));
    let mut out = [0];
    Box::new(move |times| {
        for _ in 0..times {
            assert_eq!(subject.tidy(&mut pool, FULL_WORDS, ENOUGH, &mut out), 0);
            assert_eq!(out[0], 0);
        }
    })
}

fn list<S: Subject>(subject: &'static S, room: usize) -> Body {
    let pool = pools::crowded(&mut Rng::new(5), FULL);
    let mut runs = vec![0; 4 * room];
    let mut out = [0];
    Box::new(move |times| {
        for _ in 0..times {
            assert_eq!(subject.list(black_box(&pool), FULL_WORDS, 0, &mut runs, &mut out), 0);
            assert!(out[0] > 30_000);
        }
    })
}

fn list_count<S: Subject>(subject: &'static S) -> Body {
    list(subject, 0)
}

fn list_write<S: Subject>(subject: &'static S) -> Body {
    list(subject, 40_000)
}

#[cfg(test)]
mod tests {
    use super::*;

    #[test]
    fn lookups_are_decided_where_they_say() {
        let pool = looked_up_in(&Twin);
        for (address, must) in [(ROOT, (1, 4 << 20)), (MIDDLE, (2, 4096)), (LEAF, (3, 64)), (WORD, (3, 4))] {
            let mut out = [0; 5];
            assert_eq!(Twin.lookup(&pool, SMALL_WORDS, 0, address, &mut out), 0);
            let [_, _, loads, first, last] = out;
            assert_eq!((loads, last - first + 1), must);
        }
    }
}
