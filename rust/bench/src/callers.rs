//! Changes by callers: what asking a full list of regions costs beside the change itself.

use crate::cases::{almost_full, request, two_rights, Body, ENOUGH, FULL_WORDS};
use comparison::subject::{By, Subject};
use model::change::Request;
use std::hint::black_box;

/// 64 regions of sixteen words with as many between them, from the first word on, all of one owner but the last.
fn list(owner: u32, last: u32) -> Vec<u32> {
    let owner_of = |i| if i == 63 { last } else { owner };
    (0..64).flat_map(|i| [owner_of(i), 32 * i, 32 * i + 16, 0, 0]).chain([64]).collect()
}

/// The bytes from the first region to the end of the last: 127 stretches.
const ALL: u32 = 4 * (32 * 63 + 16);

/// Changes by a caller, by turns with two requests, each answered with a number.
fn by_turns<S: Subject>(
    subject: &'static S,
    regions: Vec<u32>,
    caller: u32,
    mut asked: [Request; 2],
    must: u32,
) -> Body {
    let (mut pool, mut out) = (almost_full(subject), [0]);
    Box::new(move |times| {
        for _ in 0..times {
            let by = By { regions: &regions, caller, request: black_box(asked[0]), allowance: ENOUGH };
            assert_eq!(subject.change_by(&mut pool, FULL_WORDS, by, &mut out), must);
            asked.swap(0, 1);
        }
    })
}

/// A word of the last region, by its owner: one pass over the list.
pub fn by_owner<S: Subject>(subject: &'static S) -> Body {
    by_turns(subject, list(2, 1), 1, two_rights(4 * 32 * 63, 4), 0)
}

/// All stretches, each of which allows it: as many passes.
pub fn by_all<S: Subject>(subject: &'static S) -> Body {
    by_turns(subject, list(0, 0), 0, two_rights(0, ALL), 0)
}

/// The same, refused for the last region alone; the pool is not looked at.
pub fn by_refused<S: Subject>(subject: &'static S) -> Body {
    by_turns(subject, list(0, 1), 0, [request(0, 0, ALL, 1); 2], 19)
}
