//! The calls of the C face with the inputs that take them deepest: full pools, deep tables and full states, and among
//! them ones that are refused.

use crate::painted::{taken, Argument, Function, Taken};
use comparison::given::{pools, regions, requests, shapes, states};
use comparison::rng::Rng;
use model::change::Request;
use model::regions::Asked;
use model::shape::{Shape, LEAF, TABLE};
use Argument::{Number, Words};

// So that the library is linked.
use goleuthan as _;

/// Declares functions of the library without their parameters: only their addresses are used.
macro_rules! functions {
    ($($name:ident),* $(,)?) => {
        mod c {
            extern "C" {
                $(pub fn $name();)*
            }
        }

        /// Every call of the header, by its name.
        pub const FUNCTIONS: &[(&str, Function)] = &[$((stringify!($name), c::$name)),*];
    };
}

functions! {
    gol_fresh, gol_change, gol_tidy, gol_lookup, gol_list, gol_check, gol_flush_all, gol_flush_domain,
    gol_flush_region, gol_set_switch_gate, gol_set_return_gate, gol_remove_gate, gol_step, gol_make_region,
    gol_pass_region, gol_give_export, gol_change_by,
}

/// One call: a name of the header, and what it is given.
#[derive(Clone, Debug)]
pub struct Call {
    pub name: &'static str,
    pub arguments: Vec<Argument>,
}

impl Call {
    /// Makes the call on a painted stack.
    pub fn taken(&self) -> Taken {
        let (_, function) = FUNCTIONS.iter().find(|(name, _)| *name == self.name).expect("a call of the header");
        // SAFETY: the arguments are those that the header names, in its order; lent words are their own memories, and
        // the library is proved to touch nothing else and to return.
        unsafe { taken(*function, &self.arguments) }
    }
}

const LARGEST: Shape = Shape::new(4, 8, 64);

/// A pool with every place in use and any words in its leaves.
fn crowded(rng: &mut Rng) -> (Shape, Vec<u32>) {
    (LARGEST, pools::crowded(rng, LARGEST))
}

/// A sound pool with a middle table that is not wanted, over leaves that are not wanted either.
fn unwanted(rng: &mut Rng) -> (Shape, Vec<u32>) {
    let shape = LARGEST;
    let mut pool = shape.fresh();
    for place in 0..shape.middles as usize {
        pool[shape.middle(place)..shape.middle(place) + TABLE].fill(0x8000_5555);
        pool[rng.index(4) * TABLE + 100 + place] = shape.middle(place) as u32;
    }
    for place in 0..shape.leaves as usize {
        pool[shape.leaf(place)..shape.leaf(place) + LEAF].fill(0x5555_5555);
        pool[shape.middle(place % shape.middles as usize) + rng.index(8) * 128 + place] = shape.leaf(place) as u32;
    }
    // In some the last word met says otherwise.
    if rng.once_in(2) {
        pool[shape.leaf(rng.index(64)) + LEAF - 1] = rng.word();
    }
    (shape, pool)
}

/// A pool without tables in which every word of every domain has one right.
fn all_of(right: u32) -> Vec<u32> {
    let mut pool = LARGEST.fresh();
    pool[..LARGEST.middle(0)].fill(0x8000_0000 | (right * 0x5555));
    pool
}

/// A pool of one of many kinds, with its shape.
fn any_pool(rng: &mut Rng, turn: usize) -> (Shape, Vec<u32>) {
    match turn % 8 {
        0 | 1 => crowded(rng),
        2 => unwanted(rng),
        3 => (LARGEST, all_of(rng.below(4))),
        4 => (LARGEST, pools::sound(rng, LARGEST)),
        5 => {
            let mut pool = pools::sound(rng, LARGEST);
            pools::damage(rng, &mut pool, LARGEST);
            (LARGEST, pool)
        }
        _ => {
            let shape = shapes::any(rng, turn);
            (shape, pools::sound(rng, shape))
        }
    }
}

/// A change that meets a leaf of the pool, or any.
fn any_request(rng: &mut Rng, shape: Shape, pool: &[u32]) -> Request {
    let leading: Vec<usize> = (0..shape.middle(0)).filter(|at| pool[*at] < 0x8000_0000).collect();
    if leading.is_empty() || rng.once_in(3) {
        return requests::any(rng, shape.domains);
    }
    let root = rng.pick(&leading);
    let table = pool[root] as usize;
    let pages: Vec<usize> = (0..TABLE).filter(|page| pool.get(table + page).is_some_and(|w| *w < 1 << 31)).collect();
    let page = if pages.is_empty() { rng.index(TABLE) } else { rng.pick(&pages) };
    let start = ((root % TABLE) << 22 | page << 12) as u32 + rng.below(4096);
    let length = rng.pick(&[1, 4, 60, 512, 4096, 8192, 1 << 20, 1 << 22, 1 << 23, 1 << 28]) + rng.below(64);
    Request { domain: (root / TABLE) as u32, start, length: length.min(u32::MAX - start), right: rng.below(4) }
}

fn words(n: usize) -> Argument {
    Words(vec![0; n])
}

fn lent(shape: Shape) -> Argument {
    Words(shape.words().to_vec())
}

fn allowance(rng: &mut Rng) -> u32 {
    rng.pick(&[u32::MAX, u32::MAX, 0, 1, 65, 1025])
}

/// Calls that write the pool.
pub fn of_changes(rng: &mut Rng, turn: usize) -> Vec<Call> {
    let (shape, pool) = any_pool(rng, turn);
    let request = any_request(rng, shape, &pool);
    let Request { domain, start, length, right } = request;
    let asked = [Number(domain), Number(start), Number(length), Number(right), Number(allowance(rng)), words(1)];
    let list = regions::list(rng, shape.domains);
    // Domain 0 may change what no region holds, and everyone a list that holds none.
    let (caller, list) = if rng.once_in(2) { (0, vec![0; list.len()]) } else { (rng.below(shape.domains), list) };
    let lent_pool = Words(pool.clone());
    vec![
        Call { name: "gol_fresh", arguments: vec![lent_pool.clone(), lent(shape)] },
        Call { name: "gol_change", arguments: [vec![lent_pool.clone(), lent(shape)], asked.to_vec()].concat() },
        Call {
            name: "gol_change_by",
            arguments: [vec![lent_pool.clone(), lent(shape), Words(list), Number(caller)], asked.to_vec()].concat(),
        },
        Call { name: "gol_tidy", arguments: vec![lent_pool, lent(shape), Number(allowance(rng)), words(1)] },
    ]
}

/// Calls that read the pool, or a state beside it.
pub fn of_reads(rng: &mut Rng, turn: usize) -> Vec<Call> {
    let (shape, pool) = any_pool(rng, turn);
    let at = any_request(rng, shape, &pool);
    let lent_pool = Words(pool);
    let (runs, from) = (words(4 * rng.index(64)), rng.pick(&[0, 1, 37]));
    let buffer = Words(states::buffer(rng, shape.domains));
    let (gates, stack) = (Words(states::gates(rng, shape.domains)), Words(states::stack(rng, shape.domains)));
    let (kind, size) = (rng.below(4), rng.pick(&[1, 2, 4, 4, 4]));
    let here = if rng.once_in(2) { states::gate_address(rng) } else { at.start & !3 };
    let target = 4 * rng.below(3);
    let access = [Number(at.domain), Number(kind), Number(size), Number(at.start & !3), words(2)];
    vec![
        Call {
            name: "gol_lookup",
            arguments: vec![lent_pool.clone(), lent(shape), Number(at.domain), Number(at.start), words(5)],
        },
        Call { name: "gol_list", arguments: vec![lent_pool.clone(), lent(shape), Number(from), runs, words(1)] },
        Call { name: "gol_check", arguments: [vec![lent_pool.clone(), lent(shape), buffer], access.to_vec()].concat() },
        Call {
            name: "gol_step",
            arguments: vec![lent_pool, lent(shape), gates, stack, Number(here), Number(target), words(1)],
        },
    ]
}

/// Calls on buffers and gates.
pub fn of_states(rng: &mut Rng, turn: usize) -> Vec<Call> {
    let d = 1 + (turn % 4) as u32;
    let buffer = Words(states::buffer(rng, d));
    let gates = Words(states::gates(rng, d));
    let Request { domain, start, length, right: _ } = requests::any(rng, d);
    let (place, to) = (states::gate_address(rng), rng.below(d + 1));
    let at = [Number(domain), Number(place)];
    let on_gates = |more: &[Argument]| [vec![Number(d), gates.clone()], at.to_vec(), more.to_vec()].concat();
    vec![
        Call { name: "gol_flush_all", arguments: vec![buffer.clone()] },
        Call { name: "gol_flush_domain", arguments: vec![buffer.clone(), Number(domain)] },
        Call { name: "gol_flush_region", arguments: vec![buffer, Number(domain), Number(start), Number(length)] },
        Call { name: "gol_set_switch_gate", arguments: on_gates(&[Number(to)]) },
        Call { name: "gol_set_return_gate", arguments: on_gates(&[]) },
        Call { name: "gol_remove_gate", arguments: on_gates(&[]) },
    ]
}

/// Calls on region lists.
pub fn of_regions(rng: &mut Rng, turn: usize) -> Vec<Call> {
    let domains = 1 + (turn % 4) as u32;
    let list = regions::list(rng, domains);
    let Asked { d, caller, start, length } = regions::asked(rng, &list, domains);
    let (other, right) = (regions::domain(rng, domains), regions::right(rng));
    let begins = [Number(d), Words(list), Number(caller), Number(other)];
    let ends = [Number(start), Number(length)];
    let call = |name, more: &[Argument]| Call { name, arguments: [&begins[..], more, &ends[..]].concat() };
    vec![call("gol_make_region", &[]), call("gol_pass_region", &[]), call("gol_give_export", &[Number(right)])]
}
