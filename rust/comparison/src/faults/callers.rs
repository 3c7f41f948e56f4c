//! The wrong functions on region lists and for callers, each over the twin's.

use super::programs::by_word_number;
use crate::subject::{By, Subject, Twin, CUT};
use model::change::Request;
use model::region::Region;
use model::regions::{Asked, Regions, REGIONS, REGIONS_WORDS};
use model::shape::Shape;

const COUNT: usize = REGIONS_WORDS - 1;

/// A change by a caller as the twin makes it with a list that was altered; one of another length is not.
fn by_altered(pool: &mut [u32], shape: Shape, by: By, out: &mut [u32], alter: impl Fn(&mut Regions)) -> u32 {
    if by.regions.len() != REGIONS_WORDS {
        return Twin.change_by(pool, &shape.words(), by, out);
    }
    let mut altered = Regions::from_words(by.regions);
    alter(&mut altered);
    Twin.change_by(pool, &shape.words(), By { regions: &altered.to_words(), ..by }, out)
}

pub fn later_region(pool: &mut [u32], shape: Shape, by: By, out: &mut [u32]) -> u32 {
    by_altered(pool, shape, by, out, |list| {
        let held = list.count.min(64) as usize;
        list.array[..held].reverse();
    })
}

/// An export that was not given is read as one of none.
pub fn ungiven_is_none(pool: &mut [u32], shape: Shape, by: By, out: &mut [u32]) -> u32 {
    by_altered(pool, shape, by, out, |list| {
        for region in &mut list.array {
            let ungiven = (0..16).filter(|domain| region.given >> domain & 1 == 0);
            let unsaid = ungiven.fold(0u32, |bits, domain| bits | 3 << (2 * domain));
            region.rights &= !unsaid;
            region.given |= 0xFFFF;
        }
    })
}

/// Whether a domain was given an export is not looked at: the bits of its right decide.
pub fn given_unseen(pool: &mut [u32], shape: Shape, by: By, out: &mut [u32]) -> u32 {
    by_altered(pool, shape, by, out, |list| list.array.iter_mut().for_each(|region| region.given = 0xFFFF))
}

pub fn write_below_execute(pool: &mut [u32], shape: Shape, by: By, out: &mut [u32]) -> u32 {
    by_altered(pool, shape, by, out, |list| {
        for region in list.array.iter_mut().filter(|_| by.request.right == 2) {
            let threes = region.rights & (region.rights >> 1) & 0x5555_5555;
            region.rights ^= threes;
        }
    })
}

pub fn idle_counts(pool: &mut [u32], shape: Shape, by: By, out: &mut [u32]) -> u32 {
    by_altered(pool, shape, by, out, |list| list.count = list.count.max(64))
}

/// The number of a call on a copy of the pool.
fn number_of(pool: &[u32], shape: Shape, by: By) -> u32 {
    Twin.change_by(&mut pool.to_vec(), &shape.words(), by, &mut [])
}

/// The change without a look at the list.
fn unasked(pool: &mut [u32], shape: Shape, by: By, out: &mut [u32]) -> u32 {
    Twin.change(pool, &shape.words(), by.request, by.allowance, out)
}

pub fn exporter_sets_own(pool: &mut [u32], shape: Shape, by: By, out: &mut [u32]) -> u32 {
    let other = Request { domain: (by.caller + 1) % shape.domains.max(1), ..by.request };
    let own = by.caller == by.request.domain && shape.domains > 1;
    if own && number_of(pool, shape, by) == 19 && number_of(pool, shape, By { request: other, ..by }) != 19 {
        return unasked(pool, shape, by, out);
    }
    Twin.change_by(pool, &shape.words(), by, out)
}

pub fn ends_alone(pool: &mut [u32], shape: Shape, by: By, out: &mut [u32]) -> u32 {
    let Request { start, length, .. } = by.request;
    let ends = [start, start.wrapping_add(length).wrapping_sub(1)];
    let asks = |end: u32| By { request: Request { start: end, length: 1, ..by.request }, ..by };
    if number_of(pool, shape, by) == 19 && ends.iter().all(|end| number_of(pool, shape, asks(*end)) != 19) {
        return unasked(pool, shape, by, out);
    }
    Twin.change_by(pool, &shape.words(), by, out)
}

pub fn first_word_alone(pool: &mut [u32], shape: Shape, by: By, out: &mut [u32]) -> u32 {
    let first = By { request: Request { length: 1, ..by.request }, ..by };
    if number_of(pool, shape, by) == 19 && number_of(pool, shape, first) != 19 {
        return unasked(pool, shape, by, out);
    }
    Twin.change_by(pool, &shape.words(), by, out)
}

/// Start and length are rounded each by itself where the list is asked, and as they must be for the change.
pub fn asks_by_itself(pool: &mut [u32], shape: Shape, by: By, out: &mut [u32]) -> u32 {
    let request = Request { start: by.request.start & !3, ..by.request };
    let asked = number_of(pool, shape, By { request, ..by });
    match Twin.change_by(&mut pool.to_vec(), &shape.words(), by, out) {
        0 | 6..=8 | CUT if asked == 19 => Twin.change_by(pool, &shape.words(), By { request, ..by }, out),
        19 if asked != 19 => unasked(pool, shape, by, out),
        _ => Twin.change_by(pool, &shape.words(), by, out),
    }
}

/// One region must hold the whole change, or none any word of it.
pub fn one_region(pool: &mut [u32], shape: Shape, by: By, out: &mut [u32]) -> u32 {
    let region = Region::rounded(by.request.start, by.request.length);
    if let (0 | 6..=8 | CUT, Ok(region)) = (number_of(pool, shape, by), region) {
        let list = Regions::from_words(by.regions);
        if list.samples(region).iter().any(|word| list.at(*word) != list.at(region.lo)) {
            out.iter_mut().take(1).for_each(|word| *word = 0);
            return 19;
        }
    }
    Twin.change_by(pool, &shape.words(), by, out)
}

/// The change of a caller makes its stores in an order of its own.
pub fn own_order(pool: &mut [u32], shape: Shape, by: By, out: &mut [u32]) -> u32 {
    match number_of(pool, shape, by) {
        0 | CUT => by_word_number(pool, shape, by.request, by.allowance, out),
        _ => Twin.change_by(pool, &shape.words(), by, out),
    }
}

/// Looks at the pool before it asks who may.
pub fn pool_first(pool: &mut [u32], shape: Shape, by: By, out: &mut [u32]) -> u32 {
    let number = Twin.change_by(pool, &shape.words(), by, out);
    if number == 19 {
        let unallowed = unasked(&mut pool.to_vec(), shape, by, &mut []);
        return if (6..=8).contains(&unallowed) { unallowed } else { number };
    }
    number
}

/// Refuses as it must, with a word stored.
pub fn stores_first(pool: &mut [u32], shape: Shape, by: By, out: &mut [u32]) -> u32 {
    let number = Twin.change_by(pool, &shape.words(), by, out);
    if number == 19 {
        unasked(pool, shape, By { allowance: 1, ..by }, &mut []);
    }
    number
}

/// A caller that is no domain is refused as one that may not.
pub fn caller_unseen(pool: &mut [u32], shape: Shape, by: By, out: &mut [u32]) -> u32 {
    match Twin.change_by(pool, &shape.words(), by, out) {
        2 if by.request.domain < shape.domains && by.caller >= shape.domains => 19,
        number => number,
    }
}

pub fn count_before_shape(pool: &mut [u32], shape: Shape, by: By, out: &mut [u32]) -> u32 {
    match Twin.change_by(pool, &shape.words(), by, out) {
        1 if by.regions[COUNT] > 64 => 18,
        number => number,
    }
}

/// The region that a call names, the place of the held one of its words, and the list as the model has it.
fn named(list: &[u32], asked: Asked) -> Option<(Region, Option<usize>, Regions)> {
    let regions = (list.len() == REGIONS_WORDS).then(|| Regions::from_words(list)).filter(|list| list.count <= 64)?;
    let region = Region::rounded(asked.start, asked.length).ok()?;
    Some((region, regions.place(region), regions))
}

/// Makes a region as if some held ones were not there.
fn make_beside(list: &mut [u32], asked: Asked, owner: u32, unseen: impl Fn(Region, Region) -> bool) -> u32 {
    let Some((region, _, mut regions)) = named(list, asked) else {
        return Twin.make_region(list, asked, owner);
    };
    for held in &mut regions.array[..list[COUNT] as usize] {
        if unseen(Region { lo: held.lo, hi: held.hi }, region) {
            (held.lo, held.hi) = (0, 0);
        }
    }
    let number = Twin.make_region(&mut regions.to_words(), asked, owner);
    if number == 0 {
        let at = 5 * list[COUNT] as usize;
        list[at..at + 5].copy_from_slice(&[owner, region.lo, region.hi, 0, 0]);
        list[COUNT] += 1;
    }
    number
}

/// A word that two regions share is let pass.
pub fn one_word_shared(list: &mut [u32], asked: Asked, owner: u32) -> u32 {
    make_beside(list, asked, owner, |held, new| held.hi.min(new.hi) == held.lo.max(new.lo).saturating_add(1))
}

/// A region that ends before it begins, or where it begins, is taken to lie in the new one.
pub fn empty_meets(list: &mut [u32], asked: Asked, owner: u32) -> u32 {
    let inside = named(list, asked).is_some_and(|(new, _, list)| {
        list.held().iter().any(|held| held.hi <= held.lo && held.lo < new.hi && new.lo < held.hi)
    });
    match Twin.make_region(&mut list.to_vec(), asked, owner) {
        0 | 20 if inside => 19,
        _ => Twin.make_region(list, asked, owner),
    }
}

pub fn idle_meets(list: &mut [u32], asked: Asked, owner: u32) -> u32 {
    let met = named(list, asked).is_some_and(|(new, _, list)| {
        list.array[list.count as usize..].iter().any(|idle| idle.lo.max(new.lo) < idle.hi.min(new.hi))
    });
    match Twin.make_region(&mut list.to_vec(), asked, owner) {
        0 if met => 19,
        _ => Twin.make_region(list, asked, owner),
    }
}

pub fn caller_before_end(list: &mut [u32], asked: Asked, owner: u32) -> u32 {
    match Twin.make_region(list, asked, owner) {
        5 if asked.caller != 0 => 19,
        number => number,
    }
}

pub fn full_before_meeting(list: &mut [u32], asked: Asked, owner: u32) -> u32 {
    match Twin.make_region(list, asked, owner) {
        19 if list[COUNT] as usize == REGIONS => 20,
        number => number,
    }
}

pub fn count_before_d(list: &mut [u32], asked: Asked, owner: u32) -> u32 {
    match Twin.make_region(list, asked, owner) {
        1 if list[COUNT] > 64 => 18,
        number => number,
    }
}

pub fn made_by_itself(list: &mut [u32], asked: Asked, owner: u32) -> u32 {
    Twin.make_region(list, Asked { start: asked.start & !3, ..asked }, owner)
}

pub fn keeps_exports(list: &mut [u32], asked: Asked, owner: u32) -> u32 {
    let before = list.to_vec();
    let number = Twin.pass_region(list, asked, owner);
    if let (0, Some((_, Some(place), _))) = (number, named(&before, asked)) {
        list[5 * place + 3..5 * place + 5].copy_from_slice(&before[5 * place + 3..5 * place + 5]);
    }
    number
}

pub fn owner_unseen(list: &mut [u32], asked: Asked, owner: u32) -> u32 {
    match (Twin.pass_region(list, asked, owner), named(list, asked)) {
        (19, Some((_, Some(place), _))) => {
            list[5 * place] = owner;
            list[5 * place + 3..5 * place + 5].fill(0);
            0
        }
        (number, _) => number,
    }
}

/// The region is found by its first word alone.
pub fn by_first_word(list: &mut [u32], asked: Asked, owner: u32) -> u32 {
    let number = Twin.pass_region(list, asked, owner);
    let Some((region, None, regions)) = named(list, asked).filter(|_| number == 19) else {
        return number;
    };
    let place = regions.held().iter().position(|held| held.lo == region.lo && held.owner == asked.caller);
    if let Some(place) = place {
        list[5 * place] = owner;
        list[5 * place + 3..5 * place + 5].fill(0);
        return 0;
    }
    number
}

pub fn receives_own(list: &mut [u32], asked: Asked, receiver: u32, right: u32) -> u32 {
    let number = Twin.give_export(list, asked, receiver, right);
    if let (19, Some((_, Some(place), regions))) = (number, named(list, asked)) {
        if receiver == asked.caller && regions.array[place].owner == asked.caller {
            list[5 * place + 3] |= 1 << receiver;
            list[5 * place + 4] &= !(3 << (2 * receiver));
            list[5 * place + 4] |= right << (2 * receiver);
            return 0;
        }
    }
    number
}

pub fn keeps_first_export(list: &mut [u32], asked: Asked, receiver: u32, right: u32) -> u32 {
    let before = list.to_vec();
    let number = Twin.give_export(list, asked, receiver, right);
    if let (0, Some((_, Some(place), regions))) = (number, named(&before, asked)) {
        if regions.array[place].export(receiver).is_some() {
            list.copy_from_slice(&before);
        }
    }
    number
}

/// The bits of the new right are set, and those of the old one not cleared.
pub fn joins_rights(list: &mut [u32], asked: Asked, receiver: u32, right: u32) -> u32 {
    let before = list.to_vec();
    let number = Twin.give_export(list, asked, receiver, right);
    if number == 0 {
        list.iter_mut().zip(&before).skip(4).step_by(5).for_each(|(rights, before)| *rights |= before);
    }
    number
}

pub fn sets_past_d(list: &mut [u32], asked: Asked, receiver: u32, right: u32) -> u32 {
    match Twin.give_export(list, asked, receiver, right) {
        2 if receiver < 16 && asked.caller < asked.d => {
            Twin.give_export(list, Asked { d: 4, ..asked }, receiver, right)
        }
        number => number,
    }
}
