//! The safe face: each type's calls, once each way. What the library answers is compared elsewhere.

use goleuthan::{Access, Answer, CallStack, Found, Frame, Gate, GateKind, Gates, Level, LookasideBuffer};
use goleuthan::{Regions, Request, Right, Run, Shape, Slot, Stretch, Table, Verdict};

const SHAPE: Shape = Shape::new(2, 1, 1);

fn request(domain: u32, start: u32, length: u32, right: Right) -> Request {
    Request { domain, start, length, right }
}

fn number<T: std::fmt::Debug>(answer: Result<T, goleuthan::Refusal>) -> u32 {
    answer.expect_err("must be refused").number()
}

#[test]
fn a_pool_of_another_length_is_refused() {
    let mut pool = vec![7; SHAPE.pool_words() - 1];
    assert_eq!(number(Table::fresh(&mut pool, SHAPE)), 1);
    assert!(pool.iter().all(|word| *word == 7));
}

#[test]
fn a_shape_of_another_form_or_with_a_v_is_refused() {
    assert_eq!(SHAPE.words(), &[0, 2, 1, 1, 0]);
    assert_eq!(Shape::from_words(*SHAPE.words()), SHAPE);
    for place in [0, 4] {
        let mut words = *SHAPE.words();
        words[place] = 1;
        let mut pool = vec![7; SHAPE.pool_words()];
        assert_eq!(number(Table::fresh(&mut pool, Shape::from_words(words))), 1);
        assert!(pool.iter().all(|word| *word == 7));
    }
}

#[test]
fn changes_lookups_and_runs() {
    let mut pool = vec![0; SHAPE.pool_words()];
    let mut table = Table::fresh(&mut pool, SHAPE).unwrap();
    assert_eq!(table.change(request(1, 0x1000, 64, Right::ReadWrite), 9), Ok(Answer::Cut));
    assert_eq!(table.tidy(u32::MAX), Ok(Answer::Done { stores: 0 }));
    let done = table.change(request(1, 0x1000, 64, Right::ReadWrite), u32::MAX);
    assert!(matches!(done, Ok(Answer::Done { stores }) if stores <= 1026));
    let (first_byte, last_byte) = (0x1000, 0x103F);
    let found = Found { right: Right::ReadWrite, entry: 0xAAAA_AAAA, loads: 3, first_byte, last_byte };
    assert_eq!(table.lookup(1, 0x103F), Ok(found));
    assert_eq!(found.range(), first_byte..=last_byte);
    let found = Found { right: Right::None, entry: 0x8000_0000, loads: 1, first_byte: 0, last_byte: 0x3F_FFFF };
    assert_eq!(table.lookup(0, 0x103F), Ok(found));
    assert_eq!(number(table.lookup(2, 0)), 2);
    let run = Run { domain: 1, first_byte: 0x1000, last_byte: 0x103F, right: Right::ReadWrite };
    assert_eq!(table.runs(), Ok(vec![run]));
    let refused = table.change(request(0, 0, 4, Right::Read), u32::MAX).unwrap_err();
    assert_eq!(refused.to_string(), "refused 8: there are not enough middle or leaf places for these rights");
}

/// Blocks of all three levels, from the middle of a word on; a root entry that is bad ends the walk.
#[test]
fn stretches_of_a_range() {
    let mut pool = vec![0; SHAPE.pool_words()];
    let mut table = Table::fresh(&mut pool, SHAPE).unwrap();
    let _ = table.change(request(1, 0x3F_FFF8, 0x40_0008, Right::ReadWrite), u32::MAX).unwrap();
    let stretch = |first_byte, last_byte, right| Ok(Stretch { right, first_byte, last_byte });
    let page = stretch(0x3F_E801, 0x3F_EFFF, Right::None);
    let leaf = (0..63).map(|line| stretch(0x3F_F000 + 64 * line, 0x3F_F03F + 64 * line, Right::None));
    let line = [stretch(0x3F_FFC0, 0x3F_FFF7, Right::None), stretch(0x3F_FFF8, 0x3F_FFFF, Right::ReadWrite)];
    let (block, rest) = (stretch(0x40_0000, 0x7F_FFFF, Right::ReadWrite), stretch(0x80_0000, 0x80_0002, Right::None));
    let all = [page].into_iter().chain(leaf).chain(line).chain([block, rest]);
    assert!(table.stretches(1, 0x3F_E801..0x80_0003).eq(all));
    assert_eq!(table.stretches(1, ..).last(), Some(stretch(0xFFC0_0000, u32::MAX, Right::None)));
    let mut refused = table.stretches(2, ..);
    assert_eq!((number(refused.next().unwrap()), refused.next()), (2, None));
    pool[1023] = 7;
    let table = Table::resume(&mut pool, SHAPE);
    let mut end = table.stretches(0, 0xFF80_0000..);
    assert_eq!(end.next(), Some(stretch(0xFF80_0000, 0xFFBF_FFFF, Right::None)));
    assert_eq!((number(end.next().unwrap()), end.next()), (6, None));
}

#[test]
fn lengths_from_the_middle_of_a_word() {
    let mut pool = vec![0; SHAPE.pool_words()];
    let mut table = Table::fresh(&mut pool, SHAPE).unwrap();
    assert_eq!(table.change(request(0, 0x1002, 4, Right::Read), u32::MAX), Ok(Answer::Done { stores: 1026 }));
    let run = Run { domain: 0, first_byte: 0x1000, last_byte: 0x1007, right: Right::Read };
    assert_eq!(table.runs(), Ok(vec![run]));
    assert_eq!(number(table.change(request(0, 0xFFFF_FFFE, 3, Right::Read), u32::MAX)), 5);
    assert_eq!(number(table.change(request(0, 0x1002, 0, Right::Read), u32::MAX)), 4);
    let mut buffer = LookasideBuffer::empty();
    assert_eq!(number(buffer.flush_region(0, 0xFFFF_FFFE, 3)), 5);
    assert_eq!(buffer.flush_region(0, 0xFFFF_FFFE, 2), Ok(()));
}

#[test]
fn more_runs_than_are_listed_at_once() {
    let shape = Shape::new(1, 1, 1);
    let mut pool = vec![0; shape.pool_words()];
    let mut table = Table::fresh(&mut pool, shape).unwrap();
    for word in 0..200 {
        let right = if word % 2 == 0 { Right::Read } else { Right::ExecuteRead };
        let _ = table.change(request(0, 4 * word, 4, right), u32::MAX).unwrap();
    }
    let runs = table.runs().unwrap();
    assert_eq!(runs.len(), 200);
    assert!(runs.iter().zip(0..).all(|(run, word)| run.first_byte == 4 * word && run.last_byte == 4 * word + 3));
}

#[test]
fn every_word_of_64_leaves_a_run() {
    let shape = Shape::new(1, 1, 64);
    let mut pool = vec![0; shape.pool_words()];
    Table::fresh(&mut pool, shape).unwrap();
    pool[0] = 1024;
    pool[1024..2048].fill(0x8000_0000);
    (0..64).for_each(|leaf| pool[1024 + leaf] = 2048 + 64 * leaf as u32);
    pool[2048..].fill(0xDDDD_DDDD);
    let rights = [Right::Read, Right::ExecuteRead];
    let words = (0..1 << 16).map(|word| 4 * word);
    let runs = words.zip(rights.into_iter().cycle()).map(|(byte, right)| Run {
        domain: 0,
        first_byte: byte,
        last_byte: byte + 3,
        right,
    });
    assert_eq!(Table::resume(&mut pool, shape).runs(), Ok(runs.collect()));
}

#[test]
fn an_unsound_pool_is_not_listed() {
    let mut pool = vec![0; SHAPE.pool_words()];
    assert_eq!(number(Table::resume(&mut pool, SHAPE).runs()), 6);
}

#[test]
fn checks_and_flushes() {
    let mut pool = vec![0; SHAPE.pool_words()];
    let mut table = Table::fresh(&mut pool, SHAPE).unwrap();
    let _ = table.change(request(0, 0, 1 << 19, Right::Read), u32::MAX).unwrap();
    let mut buffer = LookasideBuffer::empty();
    assert_eq!(table.check(&mut buffer, 0, Access::Load(4), 64), Ok((Verdict::Pass, 1)));
    assert_eq!(table.check(&mut buffer, 0, Access::Store(1), 65), Ok((Verdict::Deny, 0)));
    assert_eq!(number(table.check(&mut buffer, 0, Access::Load(3), 0)), 9);
    assert_eq!(number(table.check(&mut buffer, 0, Access::Fetch, 2)), 10);
    let filled = buffer.clone();
    buffer.flush_domain(1).unwrap();
    buffer.flush_region(0, 1 << 22, 4).unwrap();
    assert_eq!(buffer, filled);
    buffer.flush_region(0, 1 << 21, 4).unwrap();
    assert_eq!(buffer.words()[..4], [0; 4]);
    assert_eq!(buffer.words()[256], 1);
    assert_eq!(number(buffer.flush_region(0, 0, 0)), 4);
    buffer.flush_all().unwrap();
    let mut wrong = *buffer.words();
    wrong[256] = 64;
    assert_eq!(number(LookasideBuffer::from_words(wrong).flush_all()), 18);
}

#[test]
fn gates_and_steps() {
    let mut pool = vec![0; SHAPE.pool_words()];
    let mut table = Table::fresh(&mut pool, SHAPE).unwrap();
    let _ = table.change(request(1, 0, 1 << 19, Right::ExecuteRead), u32::MAX).unwrap();
    let mut gates = Gates::none();
    gates.set_switch(2, 0, 0x40, 1).unwrap();
    gates.set_return(2, 1, 0x80).unwrap();
    assert_eq!(number(gates.set_switch(2, 1, 0x40, 1)), 14);
    let mut stack = CallStack::of(0);
    assert_eq!(table.step(&gates, &mut stack, 0, 0), Ok(Verdict::Deny));
    assert_eq!(table.step(&gates, &mut stack, 0x40, 0x44), Ok(Verdict::Pass));
    assert_eq!((stack.current(), stack.depth()), (1, 1));
    assert_eq!(number(table.step(&gates, &mut stack, 0x80, 0x48)), 17);
    assert_eq!(table.step(&gates, &mut stack, 0x80, 0x44), Ok(Verdict::Pass));
    assert_eq!((stack.current(), stack.depth()), (0, 0));
    gates.remove(2, 0, 0x40).unwrap();
    assert_eq!(number(gates.remove(2, 0, 0x40)), 13);
}

#[test]
fn slots_are_values() {
    let mut pool = vec![0; SHAPE.pool_words()];
    let mut table = Table::fresh(&mut pool, SHAPE).unwrap();
    let _ = table.change(request(1, 0x1000, 64, Right::ReadWrite), u32::MAX).unwrap();
    let mut buffer = LookasideBuffer::empty();
    assert!(buffer.slots().eq([None; 64]));
    for address in [0x1020, 0x2A00, 0xFFFF_FFFC] {
        let _ = table.check(&mut buffer, 1, Access::Load(4), address).unwrap();
    }
    let slot = |level, block, entry| Some(Slot { domain: 1, level, block, entry });
    let leaf = slot(Level::Leaf, 0x1000, 0xAAAA_AAAA);
    let middle = slot(Level::Middle, 0x2000, 0x8000_0000);
    let root = slot(Level::Root, 0xFFC0_0000, 0x8000_0000);
    assert!(buffer.slots().take(4).eq([leaf, middle, root, None]));
    assert_eq!((buffer.slots().len(), buffer.next_slot()), (64, 3));
}

/// The library empties a domain's slots and leaves what counts as empty: it and the wrapper must tell them apart alike.
#[test]
fn what_counts_as_empty_is_no_slot() {
    let mut words = [7; 257];
    let blocks = [0, 4, 32, 64, 2048, 4096, 4160, 1 << 21, 1 << 22, (1 << 22) + 4096, u32::MAX];
    let kinds = [0, 1, 2, 3, 4, u32::MAX].into_iter().flat_map(|level| blocks.map(|block| [7, level, block, 5]));
    words[..256].chunks_exact_mut(4).zip(kinds.skip(2)).for_each(|(slot, words)| slot.copy_from_slice(&words));
    let before = LookasideBuffer::from_words(words);
    let mut after = before.clone();
    after.flush_domain(7).unwrap();
    let left = before.words().chunks_exact(4).zip(after.words().chunks_exact(4)).map(|(old, new)| old == new);
    assert!(before.slots().map(|slot| slot.is_none()).eq(left));
    assert_eq!(before.slots().flatten().count(), 2 + 5 + 8);
    assert_eq!(after.slots().flatten().count(), 0);
}

#[test]
fn gates_are_values() {
    let mut gates = Gates::none();
    assert_eq!((gates.count(), gates.held().next(), gates.at(0, 0)), (0, None, None));
    gates.set_switch(2, 0, 0x40, 1).unwrap();
    gates.set_return(2, 1, 0x80).unwrap();
    gates.set_return(2, 0, 0x80).unwrap();
    let switch = Gate { domain: 0, address: 0x40, kind: GateKind::Switch(1) };
    let back = Gate { domain: 1, address: 0x80, kind: GateKind::Return };
    assert!(gates.held().eq([switch, back, Gate { domain: 0, ..back }]));
    assert_eq!((gates.at(0, 0x40), gates.at(1, 0x80), gates.at(1, 0x40)), (Some(switch), Some(back), None));
    gates.remove(2, 0, 0x40).unwrap();
    assert_eq!((gates.count(), gates.held().len(), gates.at(0, 0x40)), (2, 2, None));
}

/// A set handed in may have two gates at one place, where the earlier counts, or a count that no set has.
#[test]
fn gates_handed_in() {
    let mut words = [0; 193];
    words[..9].copy_from_slice(&[0, 0x40, 1, 1, 0x40, 0, 0, 0x40, u32::MAX]);
    words[192] = 3;
    let mut gates = Gates::from_words(words);
    let gate = |kind| Some(Gate { domain: 0, address: 0x40, kind });
    assert_eq!(gates.at(0, 0x40), gate(GateKind::Switch(1)));
    gates.remove(2, 0, 0x40).unwrap();
    assert_eq!(gates.at(0, 0x40), gate(GateKind::Return));
    words[192] = 65;
    let mut gates = Gates::from_words(words);
    assert_eq!((gates.count(), gates.held().len()), (65, 64));
    assert_eq!(number(gates.remove(2, 0, 0x40)), 18);
}

#[test]
fn frames_are_values() {
    let mut pool = vec![0; SHAPE.pool_words()];
    let mut table = Table::fresh(&mut pool, SHAPE).unwrap();
    let _ = table.change(request(0, 0, 1 << 19, Right::ExecuteRead), u32::MAX).unwrap();
    let _ = table.change(request(1, 0, 1 << 19, Right::ExecuteRead), u32::MAX).unwrap();
    let mut gates = Gates::none();
    gates.set_switch(2, 0, 0x40, 1).unwrap();
    gates.set_switch(2, 1, 0x80, 0).unwrap();
    gates.set_return(2, 0, 0xC0).unwrap();
    let mut stack = CallStack::of(0);
    assert_eq!((stack.frames().len(), stack.top()), (0, None));
    assert_eq!(table.step(&gates, &mut stack, 0x40, 0x44), Ok(Verdict::Pass));
    assert_eq!(table.step(&gates, &mut stack, 0x80, 0x84), Ok(Verdict::Pass));
    let (first, second) = (Frame { domain: 0, return_address: 0x44 }, Frame { domain: 1, return_address: 0x84 });
    assert!(stack.frames().eq([first, second]));
    assert_eq!(stack.top(), Some(second));
    assert_eq!(table.step(&gates, &mut stack, 0xC0, 0x84), Ok(Verdict::Pass));
    assert_eq!((stack.top(), stack.current()), (Some(first), second.domain));
    let mut words = *stack.words();
    words[32] = 17;
    let mut stack = CallStack::from_words(words);
    assert_eq!((stack.depth(), stack.frames().len()), (17, 16));
    assert_eq!(number(table.step(&gates, &mut stack, 0x40, 0x44)), 18);
}

/// What a buffer's user owes after a cut and after a pool is made fresh; a change that is done is told at the type.
#[test]
fn a_buffer_is_stale_until_it_is_flushed() {
    let mut pool = vec![0; SHAPE.pool_words()];
    let mut buffer = LookasideBuffer::empty();
    let mut table = Table::fresh(&mut pool, SHAPE).unwrap();
    let _ = table.change(request(0, 0, 1 << 23, Right::Read), u32::MAX).unwrap();
    assert_eq!(table.check(&mut buffer, 0, Access::Load(4), 0), Ok((Verdict::Pass, 1)));
    assert_eq!(table.change(request(0, 0, 1 << 23, Right::None), 1), Ok(Answer::Cut));
    assert_eq!(table.check(&mut buffer, 0, Access::Load(4), 0), Ok((Verdict::Pass, 0)));
    buffer.flush_region(0, 0, 1 << 23).unwrap();
    assert_eq!(table.check(&mut buffer, 0, Access::Load(4), 0), Ok((Verdict::Deny, 1)));
    assert_eq!(table.check(&mut buffer, 0, Access::Load(4), 1 << 22), Ok((Verdict::Pass, 1)));
    let table = Table::fresh(&mut pool, SHAPE).unwrap();
    assert_eq!(table.check(&mut buffer, 0, Access::Load(4), 1 << 22), Ok((Verdict::Pass, 0)));
    buffer.flush_all().unwrap();
    assert_eq!(table.check(&mut buffer, 0, Access::Load(4), 1 << 22), Ok((Verdict::Deny, 1)));
}

#[test]
fn regions_are_values() {
    let mut regions = Regions::none();
    assert_eq!((regions.count(), regions.held().next(), regions.at(0)), (0, None, None));
    regions.make(4, 0, 1, 0x1002, 4).unwrap();
    regions.make(4, 0, 2, 0x2000, 64).unwrap();
    assert_eq!(number(regions.make(4, 0, 1, 0x1007, 8)), 19);
    assert_eq!(number(regions.make(4, 1, 1, 0x3000, 8)), 19);
    regions.give(4, 1, 3, Right::None, 0x1000, 8).unwrap();
    regions.give(4, 1, 0, Right::ExecuteRead, 0x1000, 8).unwrap();
    assert_eq!(number(regions.give(4, 1, 1, Right::Read, 0x1000, 8)), 19);
    assert_eq!(number(regions.give(4, 2, 1, Right::Read, 0x1000, 8)), 19);
    let first = regions.at(0x1007).unwrap();
    assert_eq!((first.owner, first.first_word, first.end_word), (1, 0x400, 0x402));
    assert!(first.exports.given().eq([(0, Right::ExecuteRead), (3, Right::None)]));
    assert_eq!([0, 1, 2, 3, 16].map(|domain| first.exports.of(domain)), {
        [Some(Right::ExecuteRead), None, None, Some(Right::None), None]
    });
    assert!(first.holds(0x1000) && !first.holds(0xFFF) && !first.holds(0x1008));
    assert!(regions.held().map(|region| region.owner).eq([1, 2]));
    regions.pass(4, 1, 3, 0x1000, 8).unwrap();
    let passed = regions.at(0x1000).unwrap();
    assert_eq!((passed.owner, passed.exports.given().count()), (3, 0));
    assert_eq!(number(regions.pass(4, 1, 2, 0x1000, 8)), 19);
    assert_eq!(number(regions.pass(4, 4, 2, 0x1000, 8)), 2);
}

/// A list handed in may hold regions that overlap, of which the earlier counts, ones that hold nothing, bits that say
/// nothing, or a count that no list has.
#[test]
fn regions_handed_in() {
    let mut words = [0; 321];
    words[..15].copy_from_slice(&[1, 9, 4, 0, 0, 2, 4, 8, 0xFFFF_0002, u32::MAX, 3, 0, 9, 0, 0]);
    words[320] = 3;
    let mut regions = Regions::from_words(words);
    assert_eq!([0, 16, 31, 32, 36].map(|address| regions.at(address).map(|region| region.owner)), {
        [Some(3), Some(2), Some(2), Some(3), None]
    });
    let exports = regions.at(16).unwrap().exports;
    assert!(exports.given().eq([(1, Right::ExecuteRead)]));
    assert_eq!(number(regions.make(4, 0, 1, 0, 4)), 19);
    assert_eq!(regions.make(4, 0, 1, 36, 4), Ok(()));
    assert_eq!(regions.words()[15..20], [1, 9, 10, 0, 0]);
    words[320] = 64;
    assert_eq!(number(Regions::from_words(words).make(4, 0, 1, 36, 4)), 20);
    words[320] = 65;
    let mut regions = Regions::from_words(words);
    assert_eq!((regions.count(), regions.held().len()), (65, 64));
    let refused = regions.pass(4, 1, 1, 0, 4).unwrap_err();
    let says = "a count of gates or regions is above 64, a depth above 16 or a next-pointer above 63";
    assert_eq!(refused.to_string(), format!("refused 18: {says}"));
}

#[test]
fn changes_by_callers() {
    let mut pool = vec![0; SHAPE.pool_words()];
    let mut table = Table::fresh(&mut pool, SHAPE).unwrap();
    let mut regions = Regions::none();
    regions.make(2, 0, 1, 0x1000, 64).unwrap();
    let whole = request(0, 0x1000, 64, Right::ReadWrite);
    let refused = table.change_by(&regions, 0, whole, u32::MAX).unwrap_err();
    assert_eq!((refused.number(), table.runs()), (19, Ok(Vec::new())));
    let says = "the caller may not: a region, or a word of the change, does not allow it";
    assert_eq!(refused.to_string(), format!("refused 19: {says}"));
    assert_eq!(number(table.change_by(&regions, 2, whole, u32::MAX)), 2);
    assert_eq!(table.change_by(&regions, 1, whole, 9), Ok(Answer::Cut));
    assert_eq!(table.tidy(u32::MAX), Ok(Answer::Done { stores: 0 }));
    assert!(matches!(table.change_by(&regions, 1, whole, u32::MAX), Ok(Answer::Done { .. })));
    let run = Run { domain: 0, first_byte: 0x1000, last_byte: 0x103F, right: Right::ReadWrite };
    assert_eq!(table.runs(), Ok(vec![run]));
    assert_eq!(number(table.change_by(&regions, 1, request(0, 0x1000, 65, Right::None), u32::MAX)), 19);
    assert_eq!(table.change_by(&regions, 0, request(0, 0x1040, 64, Right::Read), 2), Ok(Answer::Done { stores: 1 }));
}
