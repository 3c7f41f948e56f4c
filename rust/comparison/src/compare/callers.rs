//! Changes by callers: series of them on one pool, between calls on the list, the supervisor's own changes and
//! tidyings.

use super::pools::held_stores;
use super::regions::{note_list, one_call};
use super::{same_words, Expected, Run};
use crate::given::{pools, regions, requests, shapes};
use crate::rng::Rng;
use crate::subject::{By, CUT, LENGTH};
use crate::{hold, Difference};
use model::change::{change, differing, tidy, Request};
use model::region::Region;
use model::regions::{change_by, no_greater, Regions, Setting, REGIONS_WORDS};
use model::shape::Shape;

const CALL: &str = "change by a caller";
const SHAPES: [Shape; 5] =
    [Shape::new(4, 4, 8), Shape::new(3, 3, 6), Shape::new(2, 1, 2), Shape::new(4, 8, 64), Shape::new(1, 1, 1)];

/// `count` pools, each with a list, under `length` calls one after the other.
pub fn callers(run: &mut Run, count: usize, length: usize) -> Result<(), Difference> {
    for turn in 0..count {
        let shape = SHAPES[turn % SHAPES.len()];
        let mut pool = if run.rng.once_in(6) { pools::sound(&mut run.rng, shape) } else { shape.fresh() };
        let mut list = regions::list(&mut run.rng, shape.domains);
        note_list(run, &list);
        for _ in 0..length {
            match run.rng.below(24) {
                0 | 1 => one_tidying(run, &mut pool, shape)?,
                2 => own_change(run, &mut pool, shape)?,
                3 => on_another_pool(run, &pool, shape, &list)?,
                4 => wrong_lengths(run, &pool, shape)?,
                5..=8 => one_call(run, shape.domains, &mut list)?,
                _ => one_change(run, &mut pool, shape, &list)?,
            }
        }
    }
    Ok(())
}

fn allowance(rng: &mut Rng) -> u32 {
    let most = rng.pick(&[2, 80, 1200]);
    if rng.once_in(4) {
        rng.below(most)
    } else {
        u32::MAX
    }
}

fn one_tidying(run: &mut Run, pool: &mut [u32], shape: Shape) -> Result<(), Difference> {
    let before = pool.to_vec();
    let mut out = run.lend();
    let number = run.subject.tidy(pool, &shape.words(), u32::MAX, &mut out);
    held_stores("tidying between changes by callers", tidy(&before, shape), u32::MAX, number, &out, &before, pool)
}

/// The supervisor's own change, which no region refuses.
fn own_change(run: &mut Run, pool: &mut [u32], shape: Shape) -> Result<(), Difference> {
    let request = requests::near(&mut run.rng, shape.domains);
    let before = pool.to_vec();
    let (allowance, mut out) = (allowance(&mut run.rng), run.lend());
    let number = run.subject.change(pool, &shape.words(), request, allowance, &mut out);
    let what = format!("{request:x?} between changes by callers");
    held_stores(&what, change(&before, shape, request), allowance, number, &out, &before, pool)
}

/// A change by a caller of a copy that is damaged, of another length, or taken for one of another shape.
fn on_another_pool(run: &mut Run, pool: &[u32], shape: Shape, list: &[u32]) -> Result<(), Difference> {
    let mut copy = pool.to_vec();
    match run.rng.below(4) {
        0 => copy.truncate(pool.len() - 1),
        1 => {
            let wrong = shapes::wrong(&mut run.rng, shape);
            return one_change(run, &mut copy, wrong, list);
        }
        _ => pools::damage(&mut run.rng, &mut copy, shape),
    }
    one_change(run, &mut copy, shape, list)
}

/// A change by a caller: number, result, pool and list are the model's; allowed, it is the supervisor's change itself.
fn one_change(run: &mut Run, pool: &mut [u32], shape: Shape, list: &[u32]) -> Result<(), Difference> {
    let (caller, request) = regions::request(&mut run.rng, list, shape.domains.clamp(1, 4));
    let (allowance, mut out) = (allowance(&mut run.rng), run.lend());
    let (before, lent) = (pool.to_vec(), list.to_vec());
    let by = By { regions: &lent, caller, request, allowance };
    let number = run.subject.change_by(pool, &shape.words(), by, &mut out);
    run.tally.answered(CALL, number);
    let what = format!("{request:x?} by {caller:#x} on {shape:?}");
    let held = Regions::from_words(list);
    let answer = change_by(&before, shape, &held, caller, request);
    held_stores(&what, answer, allowance, number, &out, &before, pool)?;
    same_words(&what, &lent, list)?;
    let mut own = before.clone();
    let alone = run.subject.change(&mut own, &shape.words(), request, allowance, &mut []);
    if number == 0 || number == CUT {
        hold!(alone == number, "{what}: answers {number}, and the supervisor's change {alone}");
        same_words(&what, pool, &own)?;
        every_cut(run, &before, shape, by, differing(&before, pool))?;
    }
    if matches!(number, 0 | 6..=8 | 19 | CUT) {
        let region = request.region(shape.domains).expect("it was not refused 2 to 5");
        run.tally.region(CALL, request.start, request.length);
        let setting = Setting { caller, domain: request.domain, right: request.right };
        note(run, &held, region, setting, (number == 19).then_some(alone));
    }
    Ok(())
}

/// A change of a few stores with every allowance: it reaches the words that the supervisor's own reaches.
fn every_cut(run: &mut Run, before: &[u32], shape: Shape, by: By, stores: u32) -> Result<(), Difference> {
    if stores == 0 || stores > 24 {
        return Ok(());
    }
    for allowance in 0..=stores {
        let (mut pool, mut own) = (before.to_vec(), before.to_vec());
        let number = run.subject.change_by(&mut pool, &shape.words(), By { allowance, ..by }, &mut []);
        let must = run.subject.change(&mut own, &shape.words(), by.request, allowance, &mut []);
        let what = format!("{:x?} by {:#x} with allowance {allowance}", by.request, by.caller);
        hold!(number == must, "{what}: answers {number}, and the supervisor's change {must}");
        same_words(&what, &pool, &own)?;
    }
    run.tally.met("every cut of a change by a caller");
    Ok(())
}

/// What decided: `refused` is what else the change would have answered, where it was refused 19.
fn note(run: &mut Run, held: &Regions, region: Region, setting: Setting, refused: Option<u32>) {
    let samples = held.samples(region);
    if let Some(alone) = refused {
        run.tally.met(&format!("refused 19 before {alone}"));
        run.tally.met(refused_where(held, region, setting));
    } else {
        samples.iter().for_each(|word| run.tally.met(allowed_by(held, *word, setting)));
        if samples.len() > 1 {
            run.tally.met("allowed on several stretches");
        }
        if held.at(region.lo).is_some_and(|decides| decides.lo == region.lo && decides.hi == region.hi) {
            run.tally.met("allowed on exactly the words of a region");
        }
    }
    if samples.len() == 1 {
        note_stretch(run, held, region.lo, setting);
    }
}

/// Which words of a refused change do not allow it.
fn refused_where(held: &Regions, region: Region, setting: Setting) -> &'static str {
    let Region { lo, hi } = region;
    let (first, last) = (held.may(lo, setting), held.may(hi - 1, setting));
    let one = hi - lo == 1;
    if first && last {
        "refused between its ends"
    } else if !one && !first && held.allows(Region { lo: lo + 1, hi }, setting) {
        "refused for its first word alone"
    } else if !one && !last && held.allows(Region { lo, hi: hi - 1 }, setting) {
        "refused for its last word alone"
    } else {
        "refused for other words"
    }
}

/// Why a word allows a setting.
fn allowed_by(held: &Regions, word: u32, setting: Setting) -> &'static str {
    match held.at(word) {
        None => "allowed to domain 0 outside all regions",
        Some(region) if region.owner == setting.caller => "allowed to the owner",
        Some(region) => match region.export(setting.caller) {
            Some(0) => "allowed by an export of none",
            Some(1) => "allowed by an export of read",
            Some(2) => "allowed by an export of read and write",
            _ => "allowed by an export of execute and read",
        },
    }
}

/// A change in which all words are held by the same regions: why it is refused, and whether another rule would say
/// otherwise.
fn note_stretch(run: &mut Run, held: &Regions, word: u32, setting: Setting) {
    let allowed = held.may(word, setting);
    let holding: Vec<_> = held.held().iter().filter(|region| region.holds(word)).collect();
    if holding.last().is_some_and(|last| last.lets(setting) != allowed) {
        run.tally.met(if allowed { "the earlier of two allows" } else { "the earlier of two refuses" });
    }
    let all = Regions { count: 64, ..held.clone() };
    if all.may(word, setting) != allowed {
        run.tally.met("an idle region would say otherwise");
    }
    if !allowed {
        run.tally.met(&why_refused(held, word, setting));
    }
}

fn why_refused(held: &Regions, word: u32, setting: Setting) -> String {
    let Setting { caller, domain, right } = setting;
    match held.at(word).map(|region| region.export(caller)) {
        None => "refused outside all regions".to_string(),
        Some(None) if right == 0 => "refused none without an export".to_string(),
        Some(None) => "refused without an export".to_string(),
        Some(Some(export)) if no_greater(right, export) && domain == caller => "refused for the exporter".to_string(),
        Some(Some(export)) => format!("refused right {right} by an export of {export}"),
    }
}

/// A list or a shape of another length is refused before all else, and all stays.
fn wrong_lengths(run: &mut Run, pool: &[u32], shape: Shape) -> Result<(), Difference> {
    let right_shape = run.rng.once_in(2);
    let length = if right_shape { run.rng.pick(&[0, 257, 320, 322]) } else { run.rng.pick(&[0, 320, REGIONS_WORDS]) };
    let lent = vec![0; length];
    let said = if run.rng.once_in(2) { shapes::wrong(&mut run.rng, shape) } else { shape }.words();
    let words = if right_shape { &said[..] } else { &said[..run.rng.index(5)] };
    let request = Request { domain: run.rng.below(5), start: 0, length: run.rng.below(2), right: run.rng.below(5) };
    let by = By { regions: &lent, caller: run.rng.below(5), request, allowance: u32::MAX };
    let (mut copy, mut out) = (pool.to_vec(), run.lend());
    let number = run.subject.change_by(&mut copy, words, by, &mut out);
    run.tally.answered(CALL, number);
    let what = format!("change by a caller with a list of {length} words and a shape of {}", words.len());
    Expected::new::<1>(Err(LENGTH)).held(&what, number, &out)?;
    same_words(&what, &copy, pool)
}
