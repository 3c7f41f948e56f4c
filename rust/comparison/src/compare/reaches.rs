//! How far a lookup's answer reaches: the longest stretch of one right around the word, inside the block of the entry
//! that decides. Entries with every stretch that a block can have; pools after series of changes, sound and damaged
//! ones and rubbish, each looked up at every border that is met. An answer is held against the model, and its stretch
//! against rights alone: those of the parts of its block, asked one by one, and in a sound pool those of the domain.

use super::series::request;
use super::{Expected, Run, MARK, MOST_LENT};
use crate::given::{pools, requests, shapes};
use crate::rng::Rng;
use crate::{hold, Difference};
use model::face::shape_of;
use model::rights::Rights;
use model::shape::Shape;
use model::state::State;
use model::walk::{lookup, read, Found};
use std::ops::Range;

const MEMORY: u64 = 1 << 32;

/// What an entry of a level says: so many rights, for the parts of a block of so many bytes.
struct Level {
    name: &'static str,
    bytes: u64,
    parts: u64,
}

/// By the loads that lead there, less one.
const LEVELS: [Level; 3] = [
    Level { name: "root", bytes: 4 << 20, parts: 8 },
    Level { name: "middle", bytes: 4 << 10, parts: 8 },
    Level { name: "leaf", bytes: 64, parts: 16 },
];

impl Level {
    fn part(&self) -> u64 {
        self.bytes / self.parts
    }
}

/// The bytes around an address that begin at a multiple of `bytes` and are as many.
fn aligned(address: u32, bytes: u64) -> Range<u64> {
    let first = u64::from(address) / bytes * bytes;
    first..first + bytes
}

/// The bytes of a stretch.
fn stretch(found: &Found) -> Range<u64> {
    u64::from(found.first)..u64::from(found.last) + 1
}

/// Where lookups are made; the rights of the domain where the pool is sound.
#[derive(Clone, Copy)]
struct Place<'a> {
    pool: &'a [u32],
    shape: &'a [u32],
    domain: u32,
    rights: Option<&'a Rights>,
}

/// All entries; `series` series of changes; `count` pools of any kind.
pub fn reaches(run: &mut Run, series: usize, count: usize) -> Result<(), Difference> {
    every_stretch(run)?;
    for turn in 0..series {
        one_series(run, turn)?;
    }
    for turn in 0..count {
        one_pool(run, turn)?;
    }
    Ok(())
}

/// At each level every first and last part of a stretch, for each right.
fn every_stretch(run: &mut Run) -> Result<(), Difference> {
    for (level, Level { parts, .. }) in LEVELS.iter().enumerate() {
        for (first, last) in (0..*parts).flat_map(|first| (first..*parts).map(move |last| (first, last))) {
            for right in 0..4 {
                one_stretch(run, level, first..last + 1, right)?;
            }
        }
    }
    Ok(())
}

/// An entry whose parts `within` have a right that their neighbours have not; others may have it too.
fn entry_with(rng: &mut Rng, level: usize, within: &Range<u64>, right: u32) -> u32 {
    let tag = if level < 2 { 0x8000_0000 } else { 0 };
    (0..LEVELS[level].parts).fold(tag, |entry, part| {
        let beside = part + 1 == within.start || part == within.end;
        let of_part = match within.contains(&part) {
            true => right,
            false if beside => (right + 1 + rng.below(3)) % 4,
            false => rng.below(4),
        };
        entry | of_part << (2 * part)
    })
}

const ONE: Shape = Shape::new(1, 1, 1);

/// A pool with one entry of a level at either end of its table or between, and the first byte of its block; all around
/// the block has one right.
fn pool_with(rng: &mut Rng, level: usize, entry: u32, right: u32) -> (Vec<u32>, u64) {
    let corners = [(0, 0, 0), (7, 0, 0), (7, 7, 7), (7, 1023, 63), (1023, 1023, 63)];
    let (block, page, line): (u32, u32, u32) = rng.pick(&corners);
    let (middle, leaf) = (ONE.middle(0), ONE.leaf(0));
    let at = [block as usize, middle + page as usize, leaf + line as usize];
    let mut pool = vec![0x8000_0000 | (right * 0x5555); ONE.length()];
    pool[leaf..].fill(right * 0x5555_5555);
    pool[at[1]] = leaf as u32;
    pool[at[0]] = middle as u32;
    pool[at[level]] = entry;
    (pool, aligned(block << 22 | page << 12 | line << 6, LEVELS[level].bytes).start)
}

/// One stretch from each of its parts; beyond its block the right is often the same.
fn one_stretch(run: &mut Run, level: usize, within: Range<u64>, right: u32) -> Result<(), Difference> {
    let entry = entry_with(&mut run.rng, level, &within, right);
    let beyond = if run.rng.once_in(2) { right } else { run.rng.below(4) };
    let (pool, block) = pool_with(&mut run.rng, level, entry, beyond);
    let state = read(&pool, ONE).expect("every entry leads or is rights");
    let place = Place { pool: &pool, shape: &ONE.words(), domain: 0, rights: Some(&state.rights[0]) };
    let size = LEVELS[level].part();
    let must = block + within.start * size..block + within.end * size;
    for part in within {
        let address = (block + part * size) as u32 + run.rng.below(size as u32);
        let reached = looked_up(run, &place, address)?.map(|found| stretch(&found));
        hold!(reached.as_ref() == Some(&must), "byte {address:#x} of a stretch {must:x?}: reaches {reached:x?}");
    }
    around_all(run, &place, [must.start as u32, (must.end - 1) as u32])
}

/// Changes from a fresh pool; after each, the edges of its region.
fn one_series(run: &mut Run, turn: usize) -> Result<(), Difference> {
    let shape = shapes::any(&mut run.rng, turn);
    let mut state = State::fresh(shape);
    let mut last = None;
    for _ in 0..6 {
        let asked = request(run, shape, last);
        last = Some(asked);
        let Ok(after) = state.changed(asked) else {
            continue;
        };
        state = after;
        let domain = if run.rng.once_in(4) { run.rng.below(shape.domains) } else { asked.domain };
        let rights = Some(&state.rights[domain as usize]);
        let place = Place { pool: &state.words, shape: &shape.words(), domain, rights };
        let end = asked.start.wrapping_add(asked.length);
        around_all(run, &place, [asked.start.wrapping_sub(1), asked.start, end.wrapping_sub(1), end])?;
    }
    Ok(())
}

/// A sound pool, one that is damaged, or rubbish; lent with its shape, or sometimes with any words for one.
fn one_pool(run: &mut Run, turn: usize) -> Result<(), Difference> {
    let made = shapes::any(&mut run.rng, turn);
    let mut pool = match run.rng.below(4) {
        0 => pools::random(&mut run.rng, made),
        _ => pools::sound(&mut run.rng, made),
    };
    if run.rng.once_in(3) {
        pools::damage(&mut run.rng, &mut pool, made);
    }
    let state = read(&pool, made);
    run.tally.met(if state.is_some() { "a sound pool" } else { "a pool that is not sound" });
    let words = made.words();
    for _ in 0..6 {
        let domain = if run.rng.once_in(12) { run.rng.pick(&[4, u32::MAX]) } else { run.rng.below(made.domains) };
        let rights = state.as_ref().and_then(|state| state.rights.get(domain as usize));
        let place = Place { pool: &pool, shape: &words, domain, rights };
        let address = requests::address(&mut run.rng);
        around_all(run, &place, [address])?;
    }
    let lent = shapes::lent(&mut run.rng, made);
    let place = Place { pool: &pool, shape: &lent, domain: 0, rights: None };
    let address = requests::address(&mut run.rng);
    looked_up(run, &place, address)?;
    ends(run, &Place { shape: &words, rights: state.as_ref().map(|state| &state.rights[0]), ..place })
}

/// Both ends of memory.
fn ends(run: &mut Run, place: &Place) -> Result<(), Difference> {
    around_all(run, place, [0, u32::MAX])?;
    for byte in [1, 2, 3, 0xFFFF_FFFC, 0xFFFF_FFFD, 0xFFFF_FFFE] {
        looked_up(run, place, byte)?;
    }
    Ok(())
}

fn around_all<const N: usize>(run: &mut Run, place: &Place, addresses: [u32; N]) -> Result<(), Difference> {
    addresses.into_iter().try_for_each(|address| around(run, place, address))
}

/// The stretch around an address, and then every byte near a border of the stretch, of its part and of its block.
fn around(run: &mut Run, place: &Place, address: u32) -> Result<(), Difference> {
    let Some(found) = looked_up(run, place, address)? else {
        return Ok(());
    };
    let level = &LEVELS[found.loads as usize - 1];
    let (part, block) = (aligned(address, level.part()), aligned(address, level.bytes));
    let reached = stretch(&found);
    by_parts(run, place, address, &found)?;
    by_domain(run, place, address, &found)?;
    note(run, level, &found, &block);
    let edges = [&reached, &part, &block].into_iter().flat_map(|range| [range.start, range.end]);
    let near = edges.flat_map(|edge| edge.saturating_sub(2)..edge + 2).filter(|byte| *byte < MEMORY);
    let within = reached.start + u64::from(run.rng.below((reached.end - reached.start) as u32));
    for byte in near.chain([within]) {
        let beside = looked_up(run, place, byte as u32)?;
        let same = beside == Some(found);
        let kept = !block.contains(&byte) || same == reached.contains(&byte);
        hold!(kept, "byte {byte:#x} beside {address:#x}: {beside:x?} there, {found:x?} here");
    }
    Ok(())
}

/// The subject's answer, which must be the model's: with words to spare, and once more with any number of them.
fn looked_up(run: &mut Run, place: &Place, address: u32) -> Result<Option<Found>, Difference> {
    let Place { pool, shape, domain, .. } = *place;
    let must = Expected::found(shape_of(shape, &[]).and_then(|shape| lookup(pool, shape, domain, address)));
    let what = format!("lookup of {address:#x} in domain {domain} by {shape:x?}");
    let mut out = [MARK; MOST_LENT];
    let number = run.subject.lookup(pool, shape, domain, address, &mut out);
    must.held(&what, number, &out)?;
    run.tally.answered("reach", number);
    if number != 0 || run.rng.once_in(4) {
        let mut fewer = vec![MARK; run.rng.index(MOST_LENT + 1)];
        let again = run.subject.lookup(pool, shape, domain, address, &mut fewer);
        must.held(&format!("{what} into {} words", fewer.len()), again, &fewer)?;
        let verb = if number == 0 { "found" } else { "refused" };
        run.tally.met(&format!("{verb} with {} words lent", fewer.len()));
    }
    let [right, entry, loads, first, last, ..] = out;
    Ok((number == 0).then_some(Found { right, entry, loads, first, last }))
}

/// The stretch is of whole parts of the block; each of them has the right, and the ones beside it have another.
fn by_parts(run: &mut Run, place: &Place, address: u32, found: &Found) -> Result<(), Difference> {
    let level = &LEVELS[found.loads as usize - 1];
    let (block, reached, size) = (aligned(address, level.bytes), stretch(found), level.part());
    let inside = block.start <= reached.start && reached.end <= block.end && reached.contains(&u64::from(address));
    let whole = reached.start.is_multiple_of(size) && reached.end.is_multiple_of(size);
    hold!(inside && whole, "the stretch {reached:x?} around {address:#x} is not of parts of {block:x?}");
    for part in block.step_by(size as usize) {
        let byte = part as u32 + run.rng.below(size as u32);
        let mut right = [MARK];
        let number = run.subject.lookup(place.pool, place.shape, place.domain, byte, &mut right);
        let same = number == 0 && right[0] == found.right;
        let beside = part + size == reached.start || part == reached.end;
        let kept = if reached.contains(&part) { same } else { !beside || number == 0 && !same };
        hold!(kept, "byte {byte:#x}: right {}, and {found:x?} reaches {reached:x?}", right[0]);
    }
    Ok(())
}

/// In a sound pool the stretch is the domain's own, cut at the borders of the block.
fn by_domain(run: &mut Run, place: &Place, address: u32, found: &Found) -> Result<(), Difference> {
    let Some(rights) = place.rights else {
        return Ok(());
    };
    let level = &LEVELS[found.loads as usize - 1];
    let block = aligned(address, level.bytes);
    let own = rights.piece(address / 4);
    let (start, end) = (4 * u64::from(own.start), 4 * u64::from(own.end));
    let must = start.max(block.start)..end.min(block.end);
    let reached = stretch(found);
    hold!(own.right == found.right && reached == must, "{found:x?} at {address:#x}: must reach {must:x?}");
    let mut met = |what: &str| run.tally.met(&format!("{}: {what}", level.name));
    if start < block.start {
        met("the right goes on before the block");
    }
    if end > block.end {
        met("the right goes on after the block");
    }
    if start == block.start && start > 0 {
        met("another right before the block");
    }
    if end == block.end && end < MEMORY {
        met("another right after the block");
    }
    Ok(())
}

/// Tells the tally how a stretch lies in its block.
fn note(run: &mut Run, level: &Level, found: &Found, block: &Range<u64>) {
    let reached = stretch(found);
    let length = reached.end - reached.start;
    let mut met = |what: &str| run.tally.met(&format!("{}: {what}", level.name));
    met(match length {
        _ if length == level.bytes => "a whole block",
        _ if length == level.part() => "a single part",
        _ => "several parts, not all",
    });
    if reached.start > block.start && reached.end < block.end {
        met("another right on both sides");
    }
    if reached.start == 0 {
        met("from byte 0");
    }
    if reached.end == MEMORY {
        met("to the last byte of memory");
    }
}

#[cfg(test)]
mod tests {
    use super::*;
    use crate::subject::Twin;

    /// Rights alone tell a wrong stretch from the right one, whatever the model says.
    #[test]
    fn wrong_stretches_are_seen_by_rights() {
        let shape = Shape::new(1, 0, 0);
        let mut pool = vec![0x8000_5555; shape.length()];
        pool[1] = 0x8000_5694;
        let state = read(&pool, shape).expect("it is sound");
        let sound = Place { pool: &pool, shape: &shape.words(), domain: 0, rights: Some(&state.rights[0]) };
        let (part, address) = (1 << 19, 0x50_0000);
        let reach = |first: u32, last| Found { right: 1, entry: pool[1], loads: 1, first: first * part, last };
        let seen = |place: &Place, found: Found| {
            let run = &mut Run::new(&Twin, 1);
            [by_parts(run, place, address, &found).is_err(), by_domain(run, place, address, &found).is_err()]
        };
        assert_eq!(seen(&sound, reach(9, 11 * part - 1)), [false, false]);
        let wrong = [(9, 10 * part - 1), (10, 11 * part - 1), (8, 11 * part - 1), (9, 12 * part - 1)];
        let wrong = wrong.into_iter().chain([(9, 16 * part - 1), (9, 24 * part - 1), (0, 11 * part - 1)]);
        for (first, last) in wrong.chain([(9, 11 * part), (9, 11 * part - 4)]) {
            assert_eq!(seen(&sound, reach(first, last)), [true, true], "from part {first} to {last:#x}");
            assert_eq!(seen(&Place { rights: None, ..sound }, reach(first, last)), [true, false]);
        }
    }

    /// An address at which no stretch is looked for is not let pass for one.
    #[test]
    fn a_stretch_holds_its_address() {
        let shape = Shape::new(1, 0, 0);
        let pool = shape.fresh();
        let place = Place { pool: &pool, shape: &shape.words(), domain: 0, rights: None };
        let found = Found { right: 0, entry: pool[0], loads: 1, first: 0, last: 0x3F_FFFF };
        let run = &mut Run::new(&Twin, 1);
        assert!(by_parts(run, &place, 0x3F_FFFF, &found).is_ok());
        assert!(by_parts(run, &place, 0x40_0000, &found).is_err());
    }
}
