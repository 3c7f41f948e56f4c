//! The model's list of regions against examples written by hand, and its verdict on a stretch of memory against the
//! verdicts on its words one by one.

use model::change::{change, Request};
use model::region::Region;
use model::regions::{change_by, no_greater, Asked, Owned, Regions, Setting, REGIONS_WORDS};
use model::shape::Shape;

fn none() -> Regions {
    Regions::from_words(&[0; REGIONS_WORDS])
}

fn asked(caller: u32, start: u32, length: u32) -> Asked {
    Asked { d: 4, caller, start, length }
}

fn set(caller: u32, domain: u32, right: u32) -> Setting {
    Setting { caller, domain, right }
}

/// A list of given regions, each with its owner, first word and the word past its last, and no export.
fn list(regions: &[(u32, u32, u32)]) -> Regions {
    let mut list = none();
    for (place, (owner, lo, hi)) in regions.iter().enumerate() {
        list.array[place] = Owned { owner: *owner, lo: *lo, hi: *hi, given: 0, rights: 0 };
    }
    list.count = regions.len() as u32;
    list
}

#[test]
fn the_order_of_rights() {
    let below: [[bool; 4]; 4] =
        [[true, true, true, true], [false, true, true, true], [false, false, true, false], [false, false, false, true]];
    for right in 0..4 {
        for than in 0..4 {
            assert_eq!(no_greater(right, than), below[right as usize][than as usize], "{right} and {than}");
        }
    }
}

#[test]
fn the_owner_sets_all_and_domain_0_only_outside() {
    let mut regions = none();
    regions.make(asked(0, 0x1000, 0x100), 1).unwrap();
    assert_eq!(regions.to_words()[..5], [1, 0x400, 0x440, 0, 0]);
    assert_eq!(regions.count, 1);
    for right in 0..4 {
        for domain in 0..4 {
            assert!(regions.may(0x400, set(1, domain, right)) && regions.may(0x43F, set(1, domain, right)));
            assert!(!regions.may(0x400, set(0, domain, right)) && !regions.may(0x400, set(2, domain, right)));
            assert!(regions.may(0x3FF, set(0, domain, right)) && regions.may(0x440, set(0, domain, right)));
            assert!(!regions.may(0x3FF, set(1, domain, right)) && !regions.may(0x440, set(1, domain, right)));
        }
    }
}

#[test]
fn an_export_sets_no_more_than_it_says_and_nothing_for_its_domain() {
    for export in 0..4 {
        let mut regions = none();
        regions.make(asked(0, 0x1000, 0x100), 1).unwrap();
        regions.give(asked(1, 0x1000, 0x100), 2, export).unwrap();
        assert_eq!(regions.to_words()[..5], [1, 0x400, 0x440, 0b100, export << 4]);
        for right in 0..4 {
            assert_eq!(regions.may(0x400, set(2, 3, right)), no_greater(right, export));
            assert!(!regions.may(0x400, set(2, 2, right)) && !regions.may(0x400, set(3, 0, right)));
        }
    }
}

#[test]
fn an_export_of_none_is_an_export() {
    let mut regions = none();
    regions.make(asked(0, 0, 4), 1).unwrap();
    assert!(!regions.may(0, set(2, 3, 0)));
    regions.give(asked(1, 0, 4), 2, 0).unwrap();
    assert!(regions.may(0, set(2, 3, 0)) && !regions.may(0, set(2, 3, 1)) && !regions.may(0, set(2, 2, 0)));
}

#[test]
fn domains_0_to_15_have_exports() {
    let region = Owned { owner: 99, lo: 0, hi: 1, given: 0xFFFF_7FFF, rights: 0xFFFF_FFFF };
    assert_eq!([0, 14, 15, 16, 31, 32, u32::MAX].map(|domain| region.export(domain).is_some()), {
        [true, true, false, false, false, false, false]
    });
    assert!(region.lets(set(14, 16, 3)) && !region.lets(set(16, 14, 0)) && region.lets(set(99, 99, 3)));
}

#[test]
fn a_later_export_replaces_and_passing_ends_all() {
    let mut regions = none();
    regions.make(asked(0, 0x1000, 0x100), 1).unwrap();
    regions.give(asked(1, 0x1000, 0x100), 2, 2).unwrap();
    regions.give(asked(1, 0x1000, 0x100), 3, 1).unwrap();
    regions.give(asked(1, 0x1000, 0x100), 2, 1).unwrap();
    assert_eq!(regions.to_words()[..5], [1, 0x400, 0x440, 0b1100, 0b0101_0000]);
    regions.pass(asked(1, 0x1000, 0x100), 3).unwrap();
    assert_eq!(regions.to_words()[..5], [3, 0x400, 0x440, 0, 0]);
    assert_eq!(regions.pass(asked(1, 0x1000, 0x100), 1), Err(19));
}

#[test]
fn refusals_of_the_list_in_their_order() {
    let mut regions = list(&[(1, 0x400, 0x440)]);
    let ask = |d, caller, start, length| Asked { d, caller, start, length };
    assert_eq!(regions.make(ask(0, 9, 0, 0), 9), Err(1));
    assert_eq!(regions.make(ask(5, 9, 0, 0), 9), Err(1));
    regions.count = 65;
    assert_eq!(regions.give(ask(4, 9, 0, 0), 9, 9), Err(18));
    regions.count = 1;
    assert_eq!(regions.make(ask(4, 4, 0, 0), 1), Err(2));
    assert_eq!(regions.pass(ask(4, 1, 0, 0), 4), Err(2));
    assert_eq!(regions.give(ask(4, 1, 0, 0), 2, 4), Err(3));
    assert_eq!(regions.give(ask(4, 1, 0, 0), 2, 3), Err(4));
    assert_eq!(regions.make(ask(4, 1, 0xFFFF_FFFE, 3), 1), Err(5));
    assert_eq!(regions.make(ask(4, 1, 0, 4), 1), Err(19));
    assert_eq!(regions.make(ask(4, 0, 0xFFC, 5), 1), Err(19));
    assert_eq!(regions.make(ask(4, 0, 0x10FF, 1), 1), Err(19));
    assert_eq!(regions.pass(ask(4, 1, 0x1000, 0xFC), 2), Err(19));
    assert_eq!(regions.pass(ask(4, 0, 0x1000, 0x100), 2), Err(19));
    assert_eq!(regions.give(ask(4, 1, 0x1000, 0x100), 1, 0), Err(19));
    assert_eq!(regions, list(&[(1, 0x400, 0x440)]));
    assert_eq!(regions.make(ask(4, 0, 0x1100, 1), 1), Ok(()));
    assert_eq!(regions.make(ask(4, 0, 0xFFD, 3), 1), Ok(()));
}

#[test]
fn a_full_list_takes_no_more() {
    let mut regions = none();
    for place in 0..64 {
        assert_eq!(regions.make(asked(0, 8 * place, 4), 1), Ok(()));
    }
    assert_eq!(regions.make(asked(0, 0, 8), 1), Err(19));
    assert_eq!(regions.make(asked(0, 4, 4), 1), Err(20));
    assert_eq!(regions.pass(asked(1, 8 * 63, 1), 2), Ok(()));
}

#[test]
fn of_overlapping_regions_the_earlier_counts_and_idle_ones_do_not() {
    let mut regions = list(&[(1, 10, 20), (2, 5, 30), (3, 0, 40), (1, 50, 60)]);
    let owners: Vec<Option<u32>> =
        [0, 5, 9, 10, 19, 20, 29, 30, 39, 40, 50].map(|word| regions.at(word).map(|region| region.owner)).to_vec();
    let must = [Some(3), Some(2), Some(2), Some(1), Some(1), Some(2), Some(2), Some(3), Some(3), None, Some(1)];
    assert_eq!(owners, must);
    regions.count = 3;
    assert_eq!(regions.at(50), None);
    assert!(regions.may(50, set(0, 0, 3)) && !regions.may(50, set(1, 0, 0)));
}

#[test]
fn of_two_regions_of_the_same_words_the_earlier_is_passed() {
    let mut regions = list(&[(1, 10, 20), (2, 10, 20)]);
    assert_eq!(regions.pass(asked(2, 40, 40), 3), Err(19));
    assert_eq!(regions.pass(asked(1, 40, 40), 3), Ok(()));
    assert_eq!(regions, list(&[(3, 10, 20), (2, 10, 20)]));
}

#[test]
fn a_region_that_ends_before_it_begins_holds_nothing() {
    let mut regions = list(&[(1, 20, 10), (1, 15, 15), (2, u32::MAX, 0)]);
    for word in [0, 9, 10, 14, 15, 19, 20, 21] {
        assert_eq!(regions.at(word), None);
    }
    assert_eq!(regions.make(asked(0, 0, 200), 3), Ok(()));
}

#[test]
fn a_region_may_end_past_the_memory() {
    let regions = list(&[(1, 10, u32::MAX)]);
    let memory = Region { lo: 0, hi: 1 << 30 };
    assert!(!regions.allows(memory, set(0, 0, 1)) && !regions.allows(memory, set(1, 0, 1)));
    assert!(regions.allows(Region { lo: 10, hi: 1 << 30 }, set(1, 0, 1)));
    assert!(regions.allows(Region { lo: 0, hi: 10 }, set(0, 0, 1)));
}

/// All lists of two regions within a few words, with every export of a domain: the verdict on a stretch is that on all
/// of its words.
#[test]
fn a_stretch_is_allowed_where_each_word_allows_it() {
    const END: u32 = 5;
    let pairs: Vec<(u32, u32)> = (0..=END).flat_map(|lo| (0..=END).map(move |hi| (lo, hi))).collect();
    let (mut allowed, mut refused) = (0, 0);
    for (one, other) in pairs.iter().flat_map(|one| pairs.iter().map(move |other| (one, other))) {
        let mut regions = list(&[(1, one.0, one.1), (2, other.0, other.1)]);
        for (place, export) in (0..5).flat_map(|export| [(0, export), (1, export)]) {
            regions.array[place].given = if export == 4 { 0 } else { 0b1000 };
            regions.array[place].rights = (export % 4) << 6;
            for stretch in pairs.iter().filter(|pair| pair.0 < pair.1).map(|pair| Region { lo: pair.0, hi: pair.1 }) {
                for setting in [set(0, 1, 3), set(1, 1, 2), set(2, 0, 1), set(3, 0, 1), set(3, 0, 2)] {
                    let each = (stretch.lo..stretch.hi).all(|word| regions.may(word, setting));
                    assert_eq!(regions.allows(stretch, setting), each, "{stretch:?} {setting:?} {:?}", regions.held());
                    allowed += u32::from(each);
                    refused += u32::from(!each);
                }
            }
        }
    }
    assert!(allowed > 10_000 && refused > 10_000, "{allowed} allowed, {refused} refused");
}

#[test]
fn a_change_by_a_caller() {
    let shape = Shape::new(4, 1, 1);
    let pool = shape.fresh();
    let mut regions = list(&[(1, 0x400, 0x410)]);
    let request = Request { domain: 2, start: 0x1000, length: 64, right: 2 };
    assert_eq!(change_by(&pool, shape, &regions, 1, request), change(&pool, shape, request));
    let longer = Request { length: 65, ..request };
    for caller in 0..4 {
        assert_eq!(change_by(&pool, shape, &regions, caller, longer), Err(19));
    }
    assert_eq!(change_by(&pool, shape, &regions, 4, Request { right: 4, ..request }), Err(2));
    assert_eq!(change_by(&pool, shape, &regions, 2, Request { right: 4, ..request }), Err(3));
    assert_eq!(change_by(&pool, shape, &regions, 2, Request { length: 0, ..request }), Err(4));
    assert_eq!(change_by(&pool, shape, &regions, 2, Request { length: u32::MAX, ..request }), Err(5));
    let unsound = vec![0; pool.len()];
    assert_eq!(change_by(&unsound, shape, &regions, 2, request), Err(19));
    assert_eq!(change_by(&unsound, shape, &regions, 1, request), Err(6));
    regions.count = 65;
    assert_eq!(change_by(&pool, shape, &regions, 4, request), Err(18));
    assert_eq!(change_by(&pool[1..], shape, &regions, 4, request), Err(1));
}
