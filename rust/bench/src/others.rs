//! For scale: the library beside what its user might have taken instead. These do less than the library does; what
//! they do not do is said with their figures.

use crate::cases::{almost_full, by_turns, two_rights, words_set, Body, FULL, FULL_WORDS};
use crate::direct::Direct;
use crate::pages::Pages;
use crate::segments::Segments;
use comparison::subject::{Library, Subject};
use model::change::Request;
use std::hint::black_box;

pub struct Other {
    pub says: &'static str,
    pub library: fn() -> Body,
    pub other: fn() -> Body,
}

pub const OTHERS: &[Other] = &[
    Other { says: "lookup of one word, beside the interval map's", library: lookup, other: segments_lookup },
    Other { says: "change of one word, beside the interval map's", library: change_word, other: segments_word },
    Other { says: "change of a page, beside the interval map's", library: change_page, other: segments_page },
    Other { says: "change of a page, beside `mprotect` of one", library: change_page, other: mprotect_page },
];

/// One of the words that are set in an almost full pool.
const WORD: u32 = 5 << 16;
const PAGE: u32 = 0x3000;

fn lookup() -> Body {
    let pool = almost_full(&Library);
    let mut out = [0; 5];
    Box::new(move |times| {
        for _ in 0..times {
            black_box(Library::look(black_box(&pool), FULL_WORDS, 0, black_box(WORD), &mut out));
        }
    })
}

fn change_word() -> Body {
    by_turns(&Library, almost_full(&Library), FULL, two_rights(WORD, 4), 1)
}

fn change_page() -> Body {
    by_turns(&Library, almost_full(&Library), FULL, two_rights(PAGE, 4096), 1)
}

fn set(domains: &mut [Segments], request: Request) {
    let lo = request.start / 4;
    domains[request.domain as usize].set(lo, lo + request.length / 4, request.right);
}

/// The rights of an almost full pool, one interval map a domain.
fn almost_full_segments() -> Vec<Segments> {
    let mut domains: Vec<Segments> = (0..4).map(|_| Segments::new()).collect();
    words_set().for_each(|request| set(&mut domains, request));
    let pool = almost_full(&Library);
    let mut out = [0; 3];
    for Request { domain, start, .. } in words_set() {
        for address in [start.wrapping_sub(4), start, start + 4] {
            assert_eq!(Library.lookup(&pool, FULL_WORDS, domain, address, &mut out), 0);
            assert_eq!(domains[domain as usize].right(address / 4), out[0]);
        }
    }
    domains
}

fn segments_lookup() -> Body {
    let domains = almost_full_segments();
    Box::new(move |times| {
        for _ in 0..times {
            black_box(black_box(&domains)[0].right(black_box(WORD) / 4));
        }
    })
}

fn segments_by_turns(mut requests: [Request; 2]) -> Body {
    let mut domains = almost_full_segments();
    Box::new(move |times| {
        for _ in 0..times {
            set(&mut domains, black_box(requests[0]));
            requests.swap(0, 1);
        }
    })
}

fn segments_word() -> Body {
    segments_by_turns(two_rights(WORD, 4))
}

fn segments_page() -> Body {
    segments_by_turns(two_rights(PAGE, 4096))
}

fn mprotect_page() -> Body {
    let mut pages = Pages::new();
    let mut readable = false;
    Box::new(move |times| {
        for _ in 0..times {
            pages.protect(black_box(readable));
            readable = !readable;
        }
    })
}

#[cfg(test)]
mod tests {
    use super::*;
    use crate::cases::request;

    #[test]
    fn the_word_is_one_that_is_set() {
        assert!(words_set().any(|one| one == request(0, WORD, 4, 2)));
    }
}
