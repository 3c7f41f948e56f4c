//! The wrong functions, each over the twin's.

use crate::subject::{Step, Subject, Twin, CUT};
use model::buffer::Access;
use model::change::Request;
use model::face::{shape_of, EIGHTS, SHAPE_WORDS};
use model::shape::Shape;
use twin::Phase;

/// Any form is taken for the paper's.
pub fn form_unseen(shape: &[u32]) -> Option<Shape> {
    let &[_, domains, middles, leaves, 0] = shape else {
        return None;
    };
    Some(Shape::new(domains, middles, leaves))
}

pub fn v_unseen(shape: &[u32]) -> Option<Shape> {
    let &[EIGHTS, domains, middles, leaves, _] = shape else {
        return None;
    };
    Some(Shape::new(domains, middles, leaves))
}

pub fn first_five(shape: &[u32]) -> Option<Shape> {
    shape_of(shape.get(..SHAPE_WORDS)?, &[]).ok()
}

/// Start and length are rounded each by itself.
pub fn each_by_itself(start: u32, length: u32) -> (u32, u32) {
    (start & !3, length)
}

/// The start's low two bits are added to the length once it is rounded up.
pub fn bits_after(start: u32, length: u32) -> (u32, u32) {
    let up = length.checked_next_multiple_of(4).unwrap_or(u32::MAX);
    (start & !3, if length == 0 { 0 } else { up.saturating_add(start % 4) })
}

/// The sum of the length and the low two bits loses what does not fit 32 bits.
pub fn sum_wraps(start: u32, length: u32) -> (u32, u32) {
    (start & !3, if length == 0 { 0 } else { length.wrapping_add(start % 4) })
}

/// Length 0 is missed where the low two bits make the sum more than 0.
pub fn sum_for_length(start: u32, length: u32) -> (u32, u32) {
    (start, if length == 0 { start % 4 } else { length })
}

pub fn roots_alone(pool: &mut [u32], shape: Shape) -> u32 {
    let places = pool.to_vec();
    let number = Twin.fresh(pool, &shape.words());
    if number == 0 {
        pool[shape.middle(0)..].copy_from_slice(&places[shape.middle(0)..]);
    }
    number
}

pub fn links_first(pool: &mut [u32], s: Shape, r: Request, allowance: u32, out: &mut [u32]) -> u32 {
    let order = [Phase::Give, Phase::Link, Phase::Fill];
    twin::change_ordered(pool, &s.words(), r.domain, r.start, r.length, r.right, allowance, out, order)
}

/// The right words and the right count, in an order that is not safe when it is cut.
pub fn by_word_number(pool: &mut [u32], shape: Shape, request: Request, allowance: u32, out: &mut [u32]) -> u32 {
    let mut finished = pool.to_vec();
    let number = Twin.change(&mut finished, &shape.words(), request, u32::MAX, out);
    if number != 0 {
        return number;
    }
    let differing: Vec<usize> = (0..pool.len()).filter(|at| pool[*at] != finished[*at]).collect();
    for at in differing.iter().take(allowance as usize) {
        pool[*at] = finished[*at];
    }
    if differing.len() <= allowance as usize {
        return 0;
    }
    out.iter_mut().take(1).for_each(|word| *word = 0);
    CUT
}

pub fn cut_early(pool: &mut [u32], shape: Shape, request: Request, allowance: u32, out: &mut [u32]) -> u32 {
    Twin.change(pool, &shape.words(), request, allowance.saturating_sub(1), out)
}

pub fn one_byte_more(pool: &mut [u32], shape: Shape, mut request: Request, allowance: u32, out: &mut [u32]) -> u32 {
    request.length = request.length.saturating_add(u32::from(request.length > 0));
    Twin.change(pool, &shape.words(), request, allowance, out)
}

pub fn stores_nothing(pool: &mut [u32], shape: Shape, request: Request, allowance: u32, out: &mut [u32]) -> u32 {
    Twin.change(&mut pool.to_vec(), &shape.words(), request, allowance, out)
}

pub fn first_alone(pool: &mut [u32], shape: Shape, request: Request, allowance: u32, out: &mut [u32]) -> u32 {
    if pool.starts_with(&shape.fresh()[..shape.middle(0)]) {
        Twin.change(pool, &shape.words(), request, allowance, out)
    } else {
        stores_nothing(pool, shape, request, allowance, out)
    }
}

pub fn invents_count(pool: &mut [u32], shape: Shape, request: Request, allowance: u32, out: &mut [u32]) -> u32 {
    let number = Twin.change(pool, &shape.words(), request, allowance, out);
    if number == 0 {
        out.iter_mut().take(1).for_each(|count| *count = (*count).min(1));
    }
    number
}

/// Refuses 8 where the new tables find room only in places that the same change gives up.
pub fn gives_up_late(pool: &mut [u32], shape: Shape, request: Request, allowance: u32, out: &mut [u32]) -> u32 {
    let mut finished = pool.to_vec();
    if Twin.change(&mut finished, &shape.words(), request, u32::MAX, &mut []) == 0 {
        let roots = 0..shape.middle(0);
        let used = roots.clone().filter(|at| pool[*at] < 0x8000_0000).count();
        let new = roots.filter(|at| finished[*at] < 0x8000_0000 && pool[*at] >= 0x8000_0000).count();
        if used + new > shape.middles as usize {
            out.iter_mut().take(1).for_each(|word| *word = 0);
            return 8;
        }
    }
    Twin.change(pool, &shape.words(), request, allowance, out)
}

/// Sees no table of another domain, and so takes their places.
pub fn forgets_others(pool: &mut [u32], shape: Shape, request: Request, allowance: u32, out: &mut [u32]) -> u32 {
    let mut alone = pool.to_vec();
    for domain in (0..shape.domains).filter(|domain| *domain != request.domain) {
        let root = shape.root(domain as usize);
        alone[root..root + 1024].fill(0x8000_0000);
    }
    let number = Twin.change(&mut alone, &shape.words(), request, allowance, out);
    if number == 0 {
        let root = shape.root(request.domain as usize);
        pool[root..root + 1024].copy_from_slice(&alone[root..root + 1024]);
        pool[shape.middle(0)..].copy_from_slice(&alone[shape.middle(0)..]);
    }
    number
}

pub fn tidies_first(pool: &mut [u32], shape: Shape, request: Request, allowance: u32, out: &mut [u32]) -> u32 {
    match Twin.change(pool, &shape.words(), request, allowance, out) {
        7 => {
            Twin.tidy(pool, &shape.words(), u32::MAX, &mut []);
            Twin.change(pool, &shape.words(), request, allowance, out)
        }
        number => number,
    }
}

/// Answers as it must, but has stored a word before it found the pool unsound.
pub fn refuses_late(pool: &mut [u32], shape: Shape, request: Request, allowance: u32, out: &mut [u32]) -> u32 {
    let number = Twin.change(pool, &shape.words(), request, allowance, out);
    if number == 6 {
        pool[(request.start >> 22) as usize] = 0x8000_0000;
    }
    number
}

pub fn tidies_nothing(pool: &mut [u32], shape: Shape, allowance: u32, out: &mut [u32]) -> u32 {
    Twin.tidy(&mut pool.to_vec(), &shape.words(), allowance, out)
}

pub fn tidies_all(pool: &mut [u32], shape: Shape, _: u32, out: &mut [u32]) -> u32 {
    Twin.tidy(pool, &shape.words(), u32::MAX, out)
}

pub fn zero_is_none(pool: &[u32], shape: Shape, domain: u32, address: u32, out: &mut [u32]) -> u32 {
    let number = Twin.lookup(pool, &shape.words(), domain, address, out);
    if number == 6 && pool[shape.root(domain as usize) + (address >> 22) as usize] == 0 {
        out.iter_mut().zip([0, 0, 1]).for_each(|(word, result)| *word = result);
        return 0;
    }
    number
}

pub fn three_loads(pool: &[u32], shape: Shape, domain: u32, address: u32, out: &mut [u32]) -> u32 {
    let number = Twin.lookup(pool, &shape.words(), domain, address, out);
    if number == 0 {
        out.iter_mut().skip(2).take(1).for_each(|loads| *loads = 3);
    }
    number
}

pub fn one_right(pool: &[u32], shape: Shape, domain: u32, address: u32, out: &mut [u32]) -> u32 {
    let number = Twin.lookup(pool, &shape.words(), domain, address, out);
    out.iter_mut().take(1).for_each(|right| *right = 0);
    number
}

pub fn last_word(pool: &[u32], shape: Shape, from: u32, runs: &mut [u32], out: &mut [u32]) -> u32 {
    let mut total = [0];
    let number = Twin.list(pool, &shape.words(), from, runs, &mut total);
    let written = total[0].saturating_sub(from) as usize;
    runs.chunks_exact_mut(4).take(written).for_each(|run| run[2] -= 3);
    out.iter_mut().zip(total).for_each(|(word, result)| *word = result);
    number
}

pub fn counts_fitting(pool: &[u32], shape: Shape, from: u32, runs: &mut [u32], out: &mut [u32]) -> u32 {
    let number = Twin.list(pool, &shape.words(), from, runs, out);
    let most = from.saturating_add(runs.len() as u32 / 4);
    out.iter_mut().take(1).for_each(|total| *total = (*total).min(most));
    number
}

pub fn load_on_hit(pool: &[u32], shape: Shape, buffer: &mut [u32], access: Access, out: &mut [u32]) -> u32 {
    let number = Twin.check(pool, &shape.words(), buffer, access, out);
    if number == 0 {
        out.iter_mut().skip(1).take(1).for_each(|loads| *loads = (*loads).max(1));
    }
    number
}

pub fn keeps_no_deny(pool: &[u32], shape: Shape, buffer: &mut [u32], access: Access, out: &mut [u32]) -> u32 {
    let before = buffer.to_vec();
    let mut results = [1, 0];
    let number = Twin.check(pool, &shape.words(), buffer, access, &mut results);
    if results[0] == 0 {
        buffer.copy_from_slice(&before);
    }
    out.iter_mut().zip(results).for_each(|(word, result)| *word = result);
    number
}

pub fn pointer_stays(pool: &[u32], shape: Shape, buffer: &mut [u32], access: Access, out: &mut [u32]) -> u32 {
    let before = buffer.last().copied();
    let number = Twin.check(pool, &shape.words(), buffer, access, out);
    buffer.last_mut().zip(before).into_iter().for_each(|(next, before)| *next = before);
    number
}

pub fn always_passes(pool: &[u32], shape: Shape, buffer: &mut [u32], access: Access, out: &mut [u32]) -> u32 {
    let number = Twin.check(pool, &shape.words(), buffer, access, out);
    if number == 0 {
        out.iter_mut().take(1).for_each(|verdict| *verdict = 1);
    }
    number
}

/// Answers with a copy of the buffer that was altered, where a slot of the copy matches.
fn check_altered(
    pool: &[u32],
    shape: Shape,
    buffer: &mut [u32],
    access: Access,
    out: &mut [u32],
    alter: impl Fn(&mut [u32]),
) -> u32 {
    let mut altered = buffer.to_vec();
    if let Some(slots) = altered.get_mut(..256) {
        alter(slots);
    }
    let mut results = [0; 2];
    let number = Twin.check(pool, &shape.words(), &mut altered, access, &mut results);
    if number != 0 || results[1] != 0 {
        return Twin.check(pool, &shape.words(), buffer, access, out);
    }
    out.iter_mut().zip(results).for_each(|(word, result)| *word = result);
    number
}

pub fn last_slot(pool: &[u32], shape: Shape, buffer: &mut [u32], access: Access, out: &mut [u32]) -> u32 {
    check_altered(pool, shape, buffer, access, out, |slots| {
        slots.reverse();
        slots.chunks_mut(4).for_each(<[u32]>::reverse);
    })
}

pub fn bad_entry(pool: &[u32], shape: Shape, buffer: &mut [u32], access: Access, out: &mut [u32]) -> u32 {
    check_altered(pool, shape, buffer, access, out, |slots| {
        let bad = slots.chunks_mut(4).filter(|slot| slot[1] == 1 || slot[1] == 2);
        bad.for_each(|slot| slot[3] = 0x8000_0000 | (slot[3] & 0xFFFF));
    })
}

pub fn pointer_moves(buffer: &mut [u32]) -> u32 {
    let number = Twin.flush_all(buffer);
    if number == 0 {
        buffer[256] = 0;
    }
    number
}

pub fn flushes_empty(buffer: &mut [u32], domain: u32) -> u32 {
    let number = Twin.flush_domain(buffer, domain);
    if number == 0 {
        buffer[..256].chunks_mut(4).filter(|slot| slot[0] == domain).for_each(|slot| slot.fill(0));
    }
    number
}

pub fn first_word(buffer: &mut [u32], domain: u32, start: u32, length: u32) -> u32 {
    match Twin.flush_region(&mut buffer.to_vec(), domain, start, length) {
        0 => Twin.flush_region(buffer, domain, start, 4),
        refusal => refusal,
    }
}

pub fn flushes_nothing(buffer: &mut [u32], domain: u32, start: u32, length: u32) -> u32 {
    Twin.flush_region(&mut buffer.to_vec(), domain, start, length)
}

pub fn sets_last(d: u32, gates: &mut [u32], domain: u32, address: u32) -> u32 {
    let number = Twin.set_return_gate(d, gates, domain, address);
    if number == 0 {
        Twin.remove_gate(d, gates, domain, address);
        Twin.set_return_gate(d, gates, domain, address);
    }
    number
}

pub fn clears_freed(d: u32, gates: &mut [u32], domain: u32, address: u32) -> u32 {
    let number = Twin.remove_gate(d, gates, domain, address);
    if number == 0 {
        let freed = 3 * gates[192] as usize;
        gates[freed..freed + 3].fill(0);
    }
    number
}

pub fn later_gate(pool: &[u32], shape: Shape, step: Step, out: &mut [u32]) -> u32 {
    let mut gates = step.gates.to_vec();
    let held = gates.get(192).map_or(0, |count| 3 * (*count).min(64) as usize);
    gates[..held].reverse();
    gates[..held].chunks_mut(3).for_each(<[u32]>::reverse);
    Twin.step(pool, &shape.words(), Step { gates: &gates, ..step }, out)
}

pub fn pushes_address(pool: &[u32], shape: Shape, step: Step, out: &mut [u32]) -> u32 {
    let Step { gates, stack, address, target } = step;
    let before = stack.to_vec();
    let number = Twin.step(pool, &shape.words(), Step { gates, stack, address, target }, out);
    if number == 0 && stack[32] > before[32] {
        stack[2 * before[32] as usize + 1] = address;
    }
    number
}

pub fn clears_frame(pool: &[u32], shape: Shape, step: Step, out: &mut [u32]) -> u32 {
    let Step { gates, stack, address, target } = step;
    let before = stack.to_vec();
    let number = Twin.step(pool, &shape.words(), Step { gates, stack, address, target }, out);
    if number == 0 && stack[32] < before[32] {
        let freed = 2 * stack[32] as usize;
        stack[freed..freed + 2].fill(0);
    }
    number
}
