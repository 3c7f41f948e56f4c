//! The comparisons: each runs a subject on generated inputs and holds every answer against the model.

pub mod callers;
pub mod cuts;
pub mod gates;
pub mod lengths;
pub mod lent;
pub mod life;
pub mod listings;
pub mod pools;
pub mod reaches;
pub mod regions;
pub mod rows;
pub mod series;
pub mod slots;

use crate::rng::Rng;
use crate::subject::{Subject, CUT};
use crate::tally::Tally;
use crate::{hold, Difference};
use model::walk::Found;

/// What a comparison needs: the subject, numbers to draw from, and the tally of what it met.
pub struct Run<'a> {
    pub subject: &'a dyn Subject,
    pub rng: Rng,
    pub tally: Tally,
}

impl<'a> Run<'a> {
    pub fn new(subject: &'a dyn Subject, seed: u64) -> Run<'a> {
        Run { subject, rng: Rng::new(seed), tally: Tally::default() }
    }

    /// Lends result words, a mark in each: mostly more than any call has results.
    fn lend(&mut self) -> Vec<u32> {
        let length = if self.rng.once_in(4) { self.rng.index(MOST_LENT + 1) } else { MOST_LENT };
        vec![MARK; length]
    }
}

const MARK: u32 = 0x4D41_524B;
/// A lookup has five results, the most of all calls.
const MOST_LENT: usize = 7;

/// The number and the result words that the interface gives for an answer of the model.
pub struct Expected {
    pub number: u32,
    pub results: Vec<u32>,
}

impl Expected {
    pub fn new<const N: usize>(answer: Result<[u32; N], u32>) -> Expected {
        Expected { number: answer.err().unwrap_or(0), results: answer.unwrap_or([0; N]).to_vec() }
    }

    /// A lookup.
    pub fn found(answer: Result<Found, u32>) -> Expected {
        Expected::new(answer.map(|found| [found.right, found.entry, found.loads, found.first, found.last]))
    }

    /// A change or tidying that needs `count` stores and may make `allowance`.
    pub fn stores(count: u32, allowance: u32) -> Expected {
        Expected::new(if count <= allowance { Ok([count]) } else { Err(CUT) })
    }

    /// Holds the subject's number and result words against it; words past the results keep their mark.
    pub fn held(&self, what: &str, number: u32, out: &[u32]) -> Result<(), Difference> {
        hold!(number == self.number, "{what}: answers {number}, must be {}", self.number);
        let marks = std::iter::repeat(&MARK);
        let same = out.iter().zip(self.results.iter().chain(marks)).all(|(word, must)| word == must);
        hold!(same, "{what}: results {out:x?}, must be {:x?}", self.results);
        Ok(())
    }
}

/// Holds lent words against what they must be.
pub fn same_words(what: &str, words: &[u32], must: &[u32]) -> Result<(), Difference> {
    let at = words.iter().zip(must).position(|(word, must)| word != must);
    if let Some(at) = at {
        crate::differ!("{what}: word {at} is {:#x}, must be {:#x}", words[at], must[at]);
    }
    Ok(())
}
