//! The call stack and one fetch step.

use crate::access::Kind as Access;
use crate::gates::{Gate, Gates, Kind};
use crate::shape::Shape;
use crate::walk::lookup;
use crate::Refusal;

pub const FRAMES: usize = 16;
pub const STACK_WORDS: usize = 2 * FRAMES + 2;

#[derive(Clone, Copy, Debug, PartialEq, Eq)]
pub struct Frame {
    pub domain: u32,
    pub address: u32,
}

/// An array of 16 frames, of which the first `depth` are held, and the current domain.
#[derive(Clone, Debug, PartialEq, Eq)]
pub struct CallStack {
    pub array: Vec<Frame>,
    pub depth: u32,
    pub current: u32,
}

impl CallStack {
    /// A stack of 34 words: 16 times domain, return address, then the depth, then the current domain.
    pub fn from_words(words: &[u32]) -> CallStack {
        assert_eq!(words.len(), STACK_WORDS);
        let array = words[..2 * FRAMES].chunks(2).map(|frame| Frame { domain: frame[0], address: frame[1] });
        CallStack { array: array.collect(), depth: words[2 * FRAMES], current: words[2 * FRAMES + 1] }
    }

    pub fn to_words(&self) -> Vec<u32> {
        let mut words: Vec<u32> = self.array.iter().flat_map(|frame| [frame.domain, frame.address]).collect();
        words.extend([self.depth, self.current]);
        words
    }

    fn held(&self) -> &[Frame] {
        &self.array[..self.depth as usize]
    }

    fn knows_only(&self, domains: u32) -> bool {
        self.current < domains && self.held().iter().all(|frame| frame.domain < domains)
    }

    /// One fetch step: whether it passes, or refusals 1, 18, 2, 10, then by the gate. Only a pass moves the stack.
    pub fn step(
        &mut self,
        pool: &[u32],
        shape: Shape,
        gates: &Gates,
        address: u32,
        target: u32,
    ) -> Result<bool, Refusal> {
        shape.fits(pool)?;
        if gates.count > 64 || self.depth > 16 {
            return Err(18);
        }
        if !self.knows_only(shape.domains) || !gates.held().iter().all(|gate| gate_known(gate, shape.domains)) {
            return Err(2);
        }
        if !address.is_multiple_of(4) || !target.is_multiple_of(4) {
            return Err(10);
        }
        let fetch = |domain| lookup(pool, shape, domain, address).map(|found| Access::Fetch.passes(found.right));
        match gates.at(self.current, address) {
            None => fetch(self.current),
            Some(Kind::Switch(destination)) => {
                if self.depth == 16 {
                    return Err(15);
                }
                let pass = fetch(destination)?;
                if pass {
                    self.array[self.depth as usize] = Frame { domain: self.current, address: target };
                    self.depth += 1;
                    self.current = destination;
                }
                Ok(pass)
            }
            Some(Kind::Return) => {
                let pass = fetch(self.current)?;
                if pass {
                    let top = *self.held().last().ok_or(16u32)?;
                    if top.address != target {
                        return Err(17);
                    }
                    self.depth -= 1;
                    self.current = top.domain;
                }
                Ok(pass)
            }
        }
    }
}

fn gate_known(gate: &Gate, domains: u32) -> bool {
    let destination_known = match gate.kind {
        Kind::Switch(destination) => destination < domains,
        Kind::Return => true,
    };
    gate.domain < domains && destination_known
}
