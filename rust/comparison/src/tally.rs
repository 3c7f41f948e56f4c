//! How many cases of each kind a comparison met.

use std::collections::BTreeMap;
use std::fmt;

#[derive(Default)]
pub struct Tally {
    met: BTreeMap<String, u64>,
}

impl Tally {
    pub fn met(&mut self, kind: &str) {
        match self.met.get_mut(kind) {
            Some(times) => *times += 1,
            None => {
                self.met.insert(kind.to_string(), 1);
            }
        }
    }

    /// A call answered with a number.
    pub fn answered(&mut self, call: &str, number: u32) {
        self.met(&format!("{call} answers {number}"));
    }

    /// A region of that kind was asked for, whose start and length have these remainders by 4.
    pub fn region(&mut self, what: &str, start: u32, length: u32) {
        self.met(&remainder(what, start % 4, length % 4));
    }

    /// The kinds of a list that were never met.
    pub fn missing(&self, kinds: &[String]) -> Vec<String> {
        kinds.iter().filter(|kind| !self.met.contains_key(*kind)).cloned().collect()
    }
}

/// The kinds "call answers number" for these numbers.
pub fn answers(call: &str, numbers: &[u32]) -> Vec<String> {
    numbers.iter().map(|number| format!("{call} answers {number}")).collect()
}

fn remainder(what: &str, start: u32, length: u32) -> String {
    format!("{what}: start 4n + {start}, length 4n + {length}")
}

/// A kind of region, with starts of every remainder by 4 and lengths of every remainder.
pub fn remainders(what: &str) -> Vec<String> {
    (0..16).map(|pair| remainder(what, pair / 4, pair % 4)).collect()
}

impl fmt::Display for Tally {
    fn fmt(&self, f: &mut fmt::Formatter) -> fmt::Result {
        for (kind, times) in &self.met {
            writeln!(f, "{times:>10}  {kind}")?;
        }
        Ok(())
    }
}
