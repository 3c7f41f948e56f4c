//! A call that is watched, and what it must do: its stores one by one, and its answer.

use comparison::subject::{By, Library, Subject, CUT};
use comparison::{hold, Difference};
use model::change::Request;
use model::regions::REGIONS_WORDS;
use model::shape::Shape;
use std::fmt;

/// A change or a tidying of a pool of a shape.
#[derive(Clone, Copy, Debug)]
pub struct Call {
    pub shape: Shape,
    pub work: Work,
    pub allowance: u32,
}

#[derive(Clone, Copy, Debug)]
pub enum Work {
    Change(Request),
    ChangeBy(Asked),
    Tidying,
}

/// A change that a caller asks for, and the list that says what it may.
#[derive(Clone, Copy)]
pub struct Asked {
    pub caller: u32,
    pub request: Request,
    pub regions: &'static [u32; REGIONS_WORDS],
}

/// Without the list, which is long and one of few.
impl fmt::Debug for Asked {
    fn fmt(&self, f: &mut fmt::Formatter) -> fmt::Result {
        write!(f, "{:x?} by {}", self.request, self.caller)
    }
}

impl Call {
    /// Makes the call straight away. It neither allocates nor panics.
    pub fn make(&self, pool: &mut [u32], out: &mut [u32]) -> u32 {
        match self.work {
            Work::Change(request) => Library.change(pool, &self.shape.words(), request, self.allowance, out),
            Work::ChangeBy(Asked { caller, request, regions }) => {
                let by = By { regions, caller, request, allowance: self.allowance };
                Library.change_by(pool, &self.shape.words(), by, out)
            }
            Work::Tidying => Library.tidy(pool, &self.shape.words(), self.allowance, out),
        }
    }

    pub fn with(self, allowance: u32) -> Call {
        Call { allowance, ..self }
    }
}

/// One word that is written, and with what.
#[derive(Clone, Copy, Debug, PartialEq, Eq)]
pub struct Store {
    pub at: usize,
    pub value: u32,
}

/// What a call must do.
#[derive(Clone, Debug)]
pub struct Script {
    pub number: u32,
    /// The result word: the count of a finished call, else 0.
    pub result: u32,
    pub stores: Vec<Store>,
}

impl Script {
    /// The whole script of a call: its stores are read off the cuts of every allowance, each of a copy of the pool.
    pub fn whole(call: &Call, pool: &[u32]) -> Result<Script, Difference> {
        let all = call.with(u32::MAX);
        let (number, result, finished) = made(&all, pool);
        let mut script = Script { number, result, stores: Vec::new() };
        if number != 0 {
            hold!(finished == pool, "{all:x?}: refused {number}, and the pool is another");
            return Ok(script);
        }
        let mut last = pool.to_vec();
        for allowance in 1..=result {
            let cut = call.with(allowance);
            let (number, told, now) = made(&cut, pool);
            let must = if allowance < result { (CUT, 0) } else { (0, result) };
            hold!((number, told) == must, "{cut:x?}: answers {number} with {told} and needs {result} stores");
            script.stores.push(one_store(&cut, &last, &now)?);
            last = now;
        }
        hold!(last == finished, "{all:x?}: the last cut is not the finished pool");
        Ok(script)
    }

    /// What the same call does with an allowance: as many of the stores, and the answer that goes with it.
    pub fn with(&self, allowance: u32) -> Script {
        let stores: Vec<Store> = self.stores.iter().take(allowance as usize).copied().collect();
        let cut = stores.len() < self.stores.len();
        let (number, result) = if cut { (CUT, 0) } else { (self.number, self.result) };
        Script { number, result, stores }
    }
}

/// The number, the result word and the pool of a call on a copy.
fn made(call: &Call, pool: &[u32]) -> (u32, u32, Vec<u32>) {
    let mut copy = pool.to_vec();
    let mut out = [0];
    let number = call.make(&mut copy, &mut out);
    (number, out[0], copy)
}

/// The one word by which two pools differ.
fn one_store(call: &Call, last: &[u32], now: &[u32]) -> Result<Store, Difference> {
    let differing: Vec<usize> = (0..now.len()).filter(|at| last[*at] != now[*at]).collect();
    hold!(differing.len() == 1, "{call:x?}: the words {differing:?} differ from those of one store fewer");
    let at = differing[0];
    Ok(Store { at, value: now[at] })
}
