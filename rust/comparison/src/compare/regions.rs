//! Region lists: making and passing regions and giving exports, on lists in and out of order.

use super::gates::held_number;
use super::{same_words, Run};
use crate::given::regions;
use crate::subject::LENGTH;
use crate::{hold, Difference};
use model::region::Region;
use model::regions::{Asked, Owned, Regions};

/// `count` lists, each under a number of calls one after the other.
pub fn lists(run: &mut Run, count: usize) -> Result<(), Difference> {
    for _ in 0..count {
        let domains = 1 + run.rng.below(4);
        let mut list = regions::list(&mut run.rng, domains);
        note_list(run, &list);
        for _ in 0..40 {
            match run.rng.below(20) {
                0 => wrong_lengths(run)?,
                _ => one_call(run, domains, &mut list)?,
            }
        }
    }
    Ok(())
}

/// What kinds of regions a list comes with.
pub(super) fn note_list(run: &mut Run, list: &[u32]) {
    let list = Regions::from_words(list);
    if list.count > 64 {
        return run.tally.met("a list of more than 64 regions");
    }
    let held = list.held();
    let met = |one: &Owned, other: &Owned| one.lo.max(other.lo) < one.hi.min(other.hi);
    let pairs = || held.iter().enumerate().flat_map(|(at, one)| held[..at].iter().map(move |other| (one, other)));
    let kinds = [
        ("a list of no region", held.is_empty()),
        ("a list of 64 regions", held.len() == 64),
        ("a list of regions that do not meet", held.len() > 1 && !pairs().any(|(one, other)| met(one, other))),
        ("a list of regions that overlap", pairs().any(|(one, other)| met(one, other))),
        (
            "a list with two regions of the same words",
            pairs().any(|(one, other)| one.lo == other.lo && one.hi == other.hi),
        ),
        ("a list with a region of no words", held.iter().any(|region| region.hi <= region.lo)),
        ("a list of owners that there are not", held.len() > 1 && held.iter().all(|region| region.owner > 15)),
        ("a list with bits for domains above 15", held.iter().any(|region| region.given > 0xFFFF)),
        ("a list with a region past the memory", held.iter().any(|region| region.hi > 1 << 30)),
    ];
    kinds.iter().filter(|(_, met)| *met).for_each(|(kind, _)| run.tally.met(kind));
}

const MAKING: &str = "making a region";
const PASSING: &str = "passing a region";
const GIVING: &str = "giving an export";

/// A call on the list: its number and the list afterwards are the model's, idle regions too.
pub fn one_call(run: &mut Run, domains: u32, list: &mut [u32]) -> Result<(), Difference> {
    let asked = regions::asked(&mut run.rng, list, domains);
    let (other, right) = (regions::domain(&mut run.rng, domains), regions::right(&mut run.rng));
    let before = Regions::from_words(list);
    let mut must = before.clone();
    let (call, number, answer) = match run.rng.below(4) {
        0 => (MAKING, run.subject.make_region(list, asked, other), must.make(asked, other)),
        1 => (PASSING, run.subject.pass_region(list, asked, other), must.pass(asked, other)),
        _ => (GIVING, run.subject.give_export(list, asked, other, right), must.give(asked, other, right)),
    };
    run.tally.answered(call, number);
    let what = format!("{call}, {asked:x?}, other domain {other:#x}, right {right:#x}");
    held_number(&what, number, answer)?;
    same_words(&what, list, &must.to_words())?;
    if number == 0 || number == 19 {
        let region = Region::rounded(asked.start, asked.length).expect("it was not refused 4 or 5");
        run.tally.region(call, asked.start, asked.length);
        match call {
            MAKING => note_making(run, &before, asked, region),
            _ => note_exact(run, call, &before, asked, region, other),
        }
    }
    Ok(())
}

/// How many words regions have in common.
fn shared(one: &Owned, region: Region) -> u32 {
    one.hi.min(region.hi).saturating_sub(one.lo.max(region.lo))
}

fn note_making(run: &mut Run, before: &Regions, asked: Asked, region: Region) {
    let held = before.held();
    let most = held.iter().map(|one| shared(one, region)).max().unwrap_or(0);
    run.tally.met(match (asked.caller, most) {
        (0, 0) if held.iter().any(|one| one.hi == region.lo || one.lo == region.hi) => "making: next to a region",
        (0, 0) => "making: away from all regions",
        (0, 1) => "making: refused for one word that is held",
        (0, _) => "making: refused for words that are held",
        (_, 0) => "making: refused for a caller other than 0",
        _ => "making: refused for the caller and for words that are held",
    });
}

/// Passing and giving, which name a region exactly.
fn note_exact(run: &mut Run, call: &str, before: &Regions, asked: Asked, region: Region, other: u32) {
    let Some(place) = before.place(region) else {
        return run.tally.met(&format!("{call}: there is none of these words"));
    };
    let found = before.array[place];
    let later = &before.held()[place + 1..];
    if let Some(second) = later.iter().find(|one| one.lo == found.lo && one.hi == found.hi) {
        let owners = (found.owner == asked.caller, second.owner == asked.caller);
        if owners.0 != owners.1 {
            run.tally.met(&format!("{call}: the earlier of two decides"));
        }
    }
    let had = found.export(other);
    let kind = match call {
        _ if found.owner != asked.caller => "it is another's",
        PASSING if found.given != 0 => "exports end",
        PASSING => "there was no export",
        _ if other == asked.caller => "the receiver is the caller",
        _ if had.is_some() => "in the place of an export",
        _ => "the first to a domain",
    };
    run.tally.met(&format!("{call}: {kind}"));
}

/// A list of another length is refused before all else, and stays.
fn wrong_lengths(run: &mut Run) -> Result<(), Difference> {
    let length = run.rng.pick(&[0, 5, 257, 320, 322]);
    let mut list: Vec<u32> = (0..length).map(|_| run.rng.word()).collect();
    let must = list.clone();
    let asked =
        Asked { d: run.rng.below(6), caller: run.rng.below(5), start: run.rng.word(), length: run.rng.below(9) };
    let right = run.rng.below(5);
    let numbers = [
        (MAKING, run.subject.make_region(&mut list, asked, 1)),
        (PASSING, run.subject.pass_region(&mut list, asked, 1)),
        (GIVING, run.subject.give_export(&mut list, asked, 1, right)),
    ];
    for (call, number) in numbers {
        run.tally.answered(call, number);
        hold!(number == LENGTH, "{call} in a list of {length} words: answers {number}");
    }
    same_words("a list of another length", &list, &must)
}
