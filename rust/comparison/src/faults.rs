//! Wrong programs, each with one error that a tired programmer makes. A comparison that cannot tell them from the right
//! one would be worth nothing.

mod callers;
mod programs;
mod reaches;

use crate::subject::{By, Step, Subject, Twin};
use callers::*;
use model::buffer::Access;
use model::change::Request;
use model::face::shape_of;
use model::regions::Asked;
use model::shape::Shape;
use programs::*;
use reaches::*;

/// The twin with some of its functions replaced.
#[allow(clippy::type_complexity)]
#[derive(Clone, Copy)]
pub struct Wrong {
    /// The shape that lent words say to it; nothing where they say none.
    reads: fn(&[u32]) -> Option<Shape>,
    /// The start and length that it takes those of a change for, and those of a flush.
    rounds: fn(u32, u32) -> (u32, u32),
    flush_rounds: fn(u32, u32) -> (u32, u32),
    fresh: fn(&mut [u32], Shape) -> u32,
    change: fn(&mut [u32], Shape, Request, u32, &mut [u32]) -> u32,
    tidy: fn(&mut [u32], Shape, u32, &mut [u32]) -> u32,
    lookup: fn(&[u32], Shape, u32, u32, &mut [u32]) -> u32,
    check: fn(&[u32], Shape, &mut [u32], Access, &mut [u32]) -> u32,
    list: fn(&[u32], Shape, u32, &mut [u32], &mut [u32]) -> u32,
    step: fn(&[u32], Shape, Step, &mut [u32]) -> u32,
    flush_all: fn(&mut [u32]) -> u32,
    flush_domain: fn(&mut [u32], u32) -> u32,
    flush_region: fn(&mut [u32], u32, u32, u32) -> u32,
    set_return_gate: fn(u32, &mut [u32], u32, u32) -> u32,
    remove_gate: fn(u32, &mut [u32], u32, u32) -> u32,
    make_region: fn(&mut [u32], Asked, u32) -> u32,
    pass_region: fn(&mut [u32], Asked, u32) -> u32,
    give_export: fn(&mut [u32], Asked, u32, u32) -> u32,
    change_by: fn(&mut [u32], Shape, By, &mut [u32]) -> u32,
}

const RIGHT: Wrong = Wrong {
    reads: |shape| shape_of(shape, &[]).ok(),
    rounds: |start, length| (start, length),
    flush_rounds: |start, length| (start, length),
    fresh: |pool, shape| Twin.fresh(pool, &shape.words()),
    change: |pool, shape, request, allowance, out| Twin.change(pool, &shape.words(), request, allowance, out),
    tidy: |pool, shape, allowance, out| Twin.tidy(pool, &shape.words(), allowance, out),
    lookup: |pool, shape, domain, address, out| Twin.lookup(pool, &shape.words(), domain, address, out),
    check: |pool, shape, buffer, access, out| Twin.check(pool, &shape.words(), buffer, access, out),
    list: |pool, shape, from, runs, out| Twin.list(pool, &shape.words(), from, runs, out),
    step: |pool, shape, step, out| Twin.step(pool, &shape.words(), step, out),
    flush_all: |buffer| Twin.flush_all(buffer),
    flush_domain: |buffer, domain| Twin.flush_domain(buffer, domain),
    flush_region: |buffer, domain, start, length| Twin.flush_region(buffer, domain, start, length),
    set_return_gate: |d, gates, domain, address| Twin.set_return_gate(d, gates, domain, address),
    remove_gate: |d, gates, domain, address| Twin.remove_gate(d, gates, domain, address),
    make_region: |list, asked, owner| Twin.make_region(list, asked, owner),
    pass_region: |list, asked, owner| Twin.pass_region(list, asked, owner),
    give_export: |list, asked, receiver, right| Twin.give_export(list, asked, receiver, right),
    change_by: |pool, shape, by, out| Twin.change_by(pool, &shape.words(), by, out),
};

/// A call by the shape that was read; the twin's own answer where none was.
macro_rules! by_shape {
    ($wrong:expr, $call:ident, $pool:expr, $shape:expr $(, $more:expr)*) => {
        match ($wrong.reads)($shape) {
            Some(shape) => ($wrong.$call)($pool, shape $(, $more)*),
            None => Twin.$call($pool, $shape $(, $more)*),
        }
    };
}

impl Subject for Wrong {
    fn fresh(&self, pool: &mut [u32], shape: &[u32]) -> u32 {
        by_shape!(self, fresh, pool, shape)
    }

    fn change(&self, pool: &mut [u32], shape: &[u32], request: Request, allowance: u32, out: &mut [u32]) -> u32 {
        let (start, length) = (self.rounds)(request.start, request.length);
        by_shape!(self, change, pool, shape, Request { start, length, ..request }, allowance, out)
    }

    fn tidy(&self, pool: &mut [u32], shape: &[u32], allowance: u32, out: &mut [u32]) -> u32 {
        by_shape!(self, tidy, pool, shape, allowance, out)
    }

    fn lookup(&self, pool: &[u32], shape: &[u32], domain: u32, address: u32, out: &mut [u32]) -> u32 {
        by_shape!(self, lookup, pool, shape, domain, address, out)
    }

    fn check(&self, pool: &[u32], shape: &[u32], buffer: &mut [u32], access: Access, out: &mut [u32]) -> u32 {
        by_shape!(self, check, pool, shape, buffer, access, out)
    }

    fn list(&self, pool: &[u32], shape: &[u32], from: u32, runs: &mut [u32], out: &mut [u32]) -> u32 {
        by_shape!(self, list, pool, shape, from, runs, out)
    }

    fn step(&self, pool: &[u32], shape: &[u32], step: Step, out: &mut [u32]) -> u32 {
        by_shape!(self, step, pool, shape, step, out)
    }

    fn flush_all(&self, buffer: &mut [u32]) -> u32 {
        (self.flush_all)(buffer)
    }

    fn flush_domain(&self, buffer: &mut [u32], domain: u32) -> u32 {
        (self.flush_domain)(buffer, domain)
    }

    fn flush_region(&self, buffer: &mut [u32], domain: u32, start: u32, length: u32) -> u32 {
        let (start, length) = (self.flush_rounds)(start, length);
        (self.flush_region)(buffer, domain, start, length)
    }

    fn set_switch_gate(&self, d: u32, gates: &mut [u32], domain: u32, address: u32, destination: u32) -> u32 {
        Twin.set_switch_gate(d, gates, domain, address, destination)
    }

    fn set_return_gate(&self, d: u32, gates: &mut [u32], domain: u32, address: u32) -> u32 {
        (self.set_return_gate)(d, gates, domain, address)
    }

    fn remove_gate(&self, d: u32, gates: &mut [u32], domain: u32, address: u32) -> u32 {
        (self.remove_gate)(d, gates, domain, address)
    }

    fn make_region(&self, regions: &mut [u32], asked: Asked, owner: u32) -> u32 {
        (self.make_region)(regions, asked, owner)
    }

    fn pass_region(&self, regions: &mut [u32], asked: Asked, owner: u32) -> u32 {
        (self.pass_region)(regions, asked, owner)
    }

    fn give_export(&self, regions: &mut [u32], asked: Asked, receiver: u32, right: u32) -> u32 {
        (self.give_export)(regions, asked, receiver, right)
    }

    fn change_by(&self, pool: &mut [u32], shape: &[u32], by: By, out: &mut [u32]) -> u32 {
        let (start, length) = (self.rounds)(by.request.start, by.request.length);
        let request = Request { start, length, ..by.request };
        by_shape!(self, change_by, pool, shape, By { request, ..by }, out)
    }
}

/// A wrong program: what it does, the comparison that must see it, and the program.
pub type Fault = (&'static str, &'static str, Wrong);

pub const ALL: &[Fault] = &[
    ("leaves the places of a fresh pool", "short series", Wrong { fresh: roots_alone, ..RIGHT }),
    ("links a table before it is filled", "cuts of any changes", Wrong { change: links_first, ..RIGHT }),
    ("stores by word number alone", "cuts of any changes", Wrong { change: by_word_number, ..RIGHT }),
    ("is cut one store early", "cuts of any changes", Wrong { change: cut_early, ..RIGHT }),
    ("takes the length for one byte more", "short series", Wrong { change: one_byte_more, ..RIGHT }),
    ("stores nothing and says done", "short series", Wrong { change: stores_nothing, ..RIGHT }),
    ("serves the first request alone", "short series", Wrong { change: first_alone, ..RIGHT }),
    ("invents its count", "short series", Wrong { change: invents_count, ..RIGHT }),
    ("gives tables up after taking new ones", "long series", Wrong { change: gives_up_late, ..RIGHT }),
    ("takes places of other domains", "long series", Wrong { change: forgets_others, ..RIGHT }),
    ("changes a pool that is not settled", "pools", Wrong { change: tidies_first, ..RIGHT }),
    ("changes other words of an unsound pool", "pools", Wrong { change: refuses_late, ..RIGHT }),
    ("tidies nothing", "tidyings", Wrong { tidy: tidies_nothing, ..RIGHT }),
    ("tidies without an allowance", "tidyings", Wrong { tidy: tidies_all, ..RIGHT }),
    ("reads a zero root word as none", "pools", Wrong { lookup: zero_is_none, ..RIGHT }),
    ("counts three loads", "short series", Wrong { lookup: three_loads, ..RIGHT }),
    ("has one fixed right", "short series", Wrong { lookup: one_right, ..RIGHT }),
    ("names a run's last word for its last byte", "listings", Wrong { list: last_word, ..RIGHT }),
    ("counts the runs that fit alone", "listings", Wrong { list: counts_fitting, ..RIGHT }),
    ("counts a load on a hit", "slots", Wrong { check: load_on_hit, ..RIGHT }),
    ("keeps no denied entry", "slots", Wrong { check: keeps_no_deny, ..RIGHT }),
    ("leaves the pointer on a miss", "slots", Wrong { check: pointer_stays, ..RIGHT }),
    ("always passes", "slots", Wrong { check: always_passes, ..RIGHT }),
    ("lets the last matching slot answer", "slots", Wrong { check: last_slot, ..RIGHT }),
    ("lets a slot with a bad entry answer", "slots", Wrong { check: bad_entry, ..RIGHT }),
    ("moves the pointer in a flush", "slots", Wrong { flush_all: pointer_moves, ..RIGHT }),
    ("flushes slots that count as empty", "slots", Wrong { flush_domain: flushes_empty, ..RIGHT }),
    ("flushes the slot of the first word alone", "slots", Wrong { flush_region: first_word, ..RIGHT }),
    ("flushes the slot of the first word alone", "lives", Wrong { flush_region: first_word, ..RIGHT }),
    ("flushes nothing", "lives", Wrong { flush_region: flushes_nothing, ..RIGHT }),
    ("links a table before it is filled", "lives", Wrong { change: links_first, ..RIGHT }),
    ("sets an existing gate last", "gates", Wrong { set_return_gate: sets_last, ..RIGHT }),
    ("clears the place that a removal frees", "gates", Wrong { remove_gate: clears_freed, ..RIGHT }),
    ("takes the later of two gates at one place", "steps", Wrong { step: later_gate, ..RIGHT }),
    ("pushes the address for the target", "steps", Wrong { step: pushes_address, ..RIGHT }),
    ("clears the frame that it pops", "steps", Wrong { step: clears_frame, ..RIGHT }),
    ("rounds start and length each by itself", "lengths", Wrong { rounds: each_by_itself, ..RIGHT }),
    ("rounds start and length each by itself", "short series", Wrong { rounds: each_by_itself, ..RIGHT }),
    ("adds the low bits after rounding", "lengths", Wrong { rounds: bits_after, ..RIGHT }),
    ("adds the low bits after rounding", "short series", Wrong { rounds: bits_after, ..RIGHT }),
    ("adds the low bits in 32 bits", "lengths", Wrong { rounds: sum_wraps, ..RIGHT }),
    ("refuses 4 by the sum", "lengths", Wrong { rounds: sum_for_length, ..RIGHT }),
    ("flushes a region rounded by itself", "lengths", Wrong { flush_rounds: each_by_itself, ..RIGHT }),
    ("flushes a region rounded by itself", "lives", Wrong { flush_rounds: each_by_itself, ..RIGHT }),
    ("flushes with the low bits after rounding", "lengths", Wrong { flush_rounds: bits_after, ..RIGHT }),
    ("looks at no form", "lent shapes", Wrong { reads: form_unseen, ..RIGHT }),
    ("looks at no V", "lent shapes", Wrong { reads: v_unseen, ..RIGHT }),
    ("takes the first five words of more", "lent shapes", Wrong { reads: first_five, ..RIGHT }),
    ("lets the last region count", "changes by callers", Wrong { change_by: later_region, ..RIGHT }),
    ("reads no export as one of none", "changes by callers", Wrong { change_by: ungiven_is_none, ..RIGHT }),
    ("looks at no bit of what was given", "changes by callers", Wrong { change_by: given_unseen, ..RIGHT }),
    ("lets an exporter set its own right", "changes by callers", Wrong { change_by: exporter_sets_own, ..RIGHT }),
    ("takes write for less than execute", "changes by callers", Wrong { change_by: write_below_execute, ..RIGHT }),
    ("asks the ends of the change alone", "changes by callers", Wrong { change_by: ends_alone, ..RIGHT }),
    ("asks the first word alone", "changes by callers", Wrong { change_by: first_word_alone, ..RIGHT }),
    ("wants one region for the whole change", "changes by callers", Wrong { change_by: one_region, ..RIGHT }),
    ("lets idle regions count", "changes by callers", Wrong { change_by: idle_counts, ..RIGHT }),
    ("looks at the pool before the caller", "changes by callers", Wrong { change_by: pool_first, ..RIGHT }),
    ("stores by word number for a caller", "changes by callers", Wrong { change_by: own_order, ..RIGHT }),
    ("stores a word before it refuses", "changes by callers", Wrong { change_by: stores_first, ..RIGHT }),
    ("knows callers of D or more", "changes by callers", Wrong { change_by: caller_unseen, ..RIGHT }),
    ("refuses 18 before 1", "changes by callers", Wrong { change_by: count_before_shape, ..RIGHT }),
    ("asks by a region rounded by itself", "changes by callers", Wrong { change_by: asks_by_itself, ..RIGHT }),
    ("makes a region that shares a word", "regions", Wrong { make_region: one_word_shared, ..RIGHT }),
    ("makes none around a region of no words", "regions", Wrong { make_region: empty_meets, ..RIGHT }),
    ("makes none over an idle region", "regions", Wrong { make_region: idle_meets, ..RIGHT }),
    ("refuses 19 before 5", "regions", Wrong { make_region: caller_before_end, ..RIGHT }),
    ("refuses 20 before 19", "regions", Wrong { make_region: full_before_meeting, ..RIGHT }),
    ("refuses 18 before 1", "regions", Wrong { make_region: count_before_d, ..RIGHT }),
    ("makes a region rounded by itself", "regions", Wrong { make_region: made_by_itself, ..RIGHT }),
    ("makes a region rounded by itself", "lengths", Wrong { make_region: made_by_itself, ..RIGHT }),
    ("keeps the exports of a region passed", "regions", Wrong { pass_region: keeps_exports, ..RIGHT }),
    ("passes a region of another", "regions", Wrong { pass_region: owner_unseen, ..RIGHT }),
    ("finds a region by its first word", "regions", Wrong { pass_region: by_first_word, ..RIGHT }),
    ("gives the caller an export", "regions", Wrong { give_export: receives_own, ..RIGHT }),
    ("keeps an export that was given", "regions", Wrong { give_export: keeps_first_export, ..RIGHT }),
    ("joins an export with the one before", "regions", Wrong { give_export: joins_rights, ..RIGHT }),
    ("gives an export to a domain that there is not", "regions", Wrong { give_export: sets_past_d, ..RIGHT }),
    ("lets a stretch end with its sub-block", "reaches", Wrong { lookup: stops_at_the_part, ..RIGHT }),
    ("takes the whole block for the stretch", "reaches", Wrong { lookup: gives_the_block, ..RIGHT }),
    ("runs on into the block after", "reaches", Wrong { lookup: runs_on_after, ..RIGHT }),
    ("runs on into the block before", "reaches", Wrong { lookup: runs_on_before, ..RIGHT }),
    ("joins stretches that lie apart", "reaches", Wrong { lookup: joins_what_lies_apart, ..RIGHT }),
    ("reads sixteen rights in a root entry", "reaches", Wrong { lookup: reads_sixteen_rights, ..RIGHT }),
    ("reads eight rights in a leaf entry", "reaches", Wrong { lookup: reads_eight_rights, ..RIGHT }),
    ("gives the end for the last byte", "reaches", Wrong { lookup: gives_the_end, ..RIGHT }),
    ("loses the last byte of memory", "reaches", Wrong { lookup: loses_the_last_byte, ..RIGHT }),
    ("gives the last word for the last byte", "reaches", Wrong { lookup: gives_the_last_word, ..RIGHT }),
    ("lets a stretch begin at the word", "reaches", Wrong { lookup: begins_at_the_word, ..RIGHT }),
    ("gives the low bits with the first byte", "reaches", Wrong { lookup: keeps_the_low_bits, ..RIGHT }),
    ("counts a stretch in words", "reaches", Wrong { lookup: counts_in_words, ..RIGHT }),
    ("counts a stretch from its block", "reaches", Wrong { lookup: counts_from_the_block, ..RIGHT }),
    ("swaps first and last byte", "reaches", Wrong { lookup: swaps_first_and_last, ..RIGHT }),
    ("gives three results as before", "reaches", Wrong { lookup: three_words_alone, ..RIGHT }),
    ("gives no first byte without the last", "reaches", Wrong { lookup: both_or_none, ..RIGHT }),
    ("clears a sixth result word", "reaches", Wrong { lookup: clears_the_sixth_word, ..RIGHT }),
    ("leaves first and last on a refusal", "reaches", Wrong { lookup: refuses_with_a_reach, ..RIGHT }),
    ("refuses with a block", "reaches", Wrong { lookup: refuses_with_the_block, ..RIGHT }),
    ("lets a stretch end with its sub-block", "short series", Wrong { lookup: stops_at_the_part, ..RIGHT }),
    ("gives three results as before", "pools", Wrong { lookup: three_words_alone, ..RIGHT }),
    ("leaves first and last on a refusal", "pools", Wrong { lookup: refuses_with_a_reach, ..RIGHT }),
    ("leaves first and last on a refusal", "lent shapes", Wrong { lookup: refuses_with_a_reach, ..RIGHT }),
];
