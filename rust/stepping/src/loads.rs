//! A call that only reads the pool, watched at each instruction that touches it: how many words it loads, and which.

use crate::child::Child;
use crate::guard::{guard, Against};
use crate::shared::Shared;
use comparison::{hold, Difference};
use model::shape::Shape;
use model::walk::lookup;

/// What a call answered, and the pool words that its instructions touched, in order.
#[derive(Clone, Debug, PartialEq, Eq)]
pub struct Loads {
    pub number: u32,
    pub results: [u32; RESULTS],
    pub touched: Vec<usize>,
}

/// A lookup has the most.
const RESULTS: usize = 5;
/// What a result word holds that no call wrote.
const MARK: u32 = 0x4D41_524B;

/// Makes a call in a child whose view of the pool is shut. The call is given the pool and five result words, a mark in
/// each; it neither allocates nor panics.
pub fn loads(pool: &[u32], call: impl FnOnce(&[u32], &mut [u32]) -> u32) -> Result<Loads, String> {
    let (lent, answer) = (Shared::new(pool.len())?, Shared::new(1 + RESULTS)?);
    lent.words_mut().copy_from_slice(pool);
    answer.words_mut().fill(MARK);
    let work = || {
        let (number, out) = answer.words_mut().split_at_mut(1);
        guard(lent.words_mut(), Against::Touching);
        number[0] = call(lent.words(), out);
    };
    // SAFETY: the call neither allocates nor panics.
    let mut child = unsafe { Child::start(work)? };
    let mut touched = Vec::new();
    while let Some(touch) = child.touch()? {
        touched.push(lent.word_at(touch.address)?);
    }
    let told = answer.words();
    Ok(Loads { number: told[0], results: std::array::from_fn(|i| told[1 + i]), touched })
}

/// The words that the paper's walk of an address names, up to the entry that decides or is bad.
pub fn walk(pool: &[u32], shape: Shape, domain: u32, address: u32) -> Vec<usize> {
    if shape.fits(pool).is_err() || domain >= shape.domains {
        return Vec::new();
    }
    let root = shape.root(domain as usize) + (address >> 22) as usize;
    let mut words = vec![root];
    if let Some(place) = shape.middle_at(pool[root]) {
        let middle = shape.middle(place) + (address >> 12) as usize % 1024;
        words.push(middle);
        if let Some(place) = shape.leaf_at(pool[middle]) {
            words.push(shape.leaf(place) + (address >> 6) as usize % 64);
        }
    }
    words
}

/// A lookup of an address in a pool of a shape.
#[derive(Clone, Copy, Debug)]
pub struct Lookup {
    pub shape: Shape,
    pub domain: u32,
    pub address: u32,
}

/// What makes a lookup: the library, or something that stands in for it. It neither allocates nor panics.
pub type Walker = fn(&Lookup, &[u32], &mut [u32]) -> u32;

/// A lookup loads the words of the walk, each once and in order, and answers with their number: how far the answer
/// reaches costs no load. Refused, it has loaded no more than the walk up to the bad entry.
pub fn watch_lookup(walker: Walker, asked: &Lookup, pool: &[u32]) -> Result<Loads, Difference> {
    let Lookup { shape, domain, address } = *asked;
    let made = loads(pool, |pool, out| walker(asked, pool, out)).map_err(Difference)?;
    let words = walk(pool, shape, domain, address);
    hold!(made.touched == words, "{asked:x?} loads the words {:x?}, and the walk is {words:x?}", made.touched);
    let (number, results) = match lookup(pool, shape, domain, address) {
        Ok(found) => (0, [found.right, found.entry, words.len() as u32, found.first, found.last]),
        Err(refusal) => (refusal, [0; RESULTS]),
    };
    let answered = (made.number, made.results);
    hold!(answered == (number, results), "{asked:x?} answers {answered:x?}, and must {:x?}", (number, results));
    Ok(made)
}
