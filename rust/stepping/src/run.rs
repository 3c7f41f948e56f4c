//! A series of watched calls: what watches them, what was met, and how much was stepped through.

use crate::call::{Call, Script, Work};
use crate::kinds::effect;
use crate::seat::Seat;
use crate::watch::{Program, Watched, Watcher};
use comparison::rng::Rng;
use comparison::subject::CUT;
use comparison::tally::Tally;
use comparison::Difference;
use model::shape::Shape;

/// A call with more stores than this is watched with few allowances, since each store takes many instructions.
const MANY_STORES: usize = 24;

pub struct Run {
    watcher: Watcher,
    program: Program,
    turn: usize,
    _seat: Seat,
    pub rng: Rng,
    pub tally: Tally,
    pub watched: Watched,
}

impl Run {
    pub fn new(watcher: Watcher, program: Program, seed: u64) -> Run {
        let (rng, tally, watched) = (Rng::new(seed), Tally::default(), Watched::default());
        Run { watcher, program, turn: 0, _seat: Seat::take(), rng, tally, watched }
    }

    /// Watches a call and then makes it, so that the next one finds what it left.
    pub fn make(&mut self, pool: &mut [u32], shape: Shape, work: Work) -> Result<(), Difference> {
        self.watch(pool, shape, work)?;
        Call { shape, work, allowance: u32::MAX }.make(pool, &mut []);
        Ok(())
    }

    /// Watches a call with several allowances, each on a copy of the pool.
    pub fn watch(&mut self, pool: &[u32], shape: Shape, work: Work) -> Result<(), Difference> {
        let call = Call { shape, work, allowance: u32::MAX };
        let script = Script::whole(&call, pool)?;
        let effect = effect(&call, pool);
        for (kind, allowance) in self.allowances(script.stores.len()) {
            let script = script.with(allowance);
            let watched = (self.watcher)(self.program, &call.with(allowance), pool, &script)?;
            self.watched.add(watched);
            self.note(&call, &script, kind);
            if script.number == 0 || script.number == CUT {
                effect.iter().for_each(|kind| self.tally.met(kind));
            }
        }
        Ok(())
    }

    /// None, one, half, all but one, all, and more than all; of a long call one of those that cut it and one that does
    /// not, by turns.
    fn allowances(&mut self, stores: usize) -> Vec<(&'static str, u32)> {
        let all = stores as u32;
        let cut = [("half", all / 2), ("all but one", all.saturating_sub(1)), ("one", 1), ("none", 0)];
        let done = [("more than all", u32::MAX), ("all", all)];
        match stores {
            0 | 1 => vec![("none", 0), ("more than all", u32::MAX)],
            2..=MANY_STORES => cut.into_iter().chain(done).collect(),
            _ => {
                self.turn += 1;
                vec![cut[self.turn % 4], done[self.turn % 2]]
            }
        }
    }

    fn note(&mut self, call: &Call, script: &Script, allowance: &str) {
        let name = match call.work {
            Work::Change(_) => "change",
            Work::ChangeBy(_) => "change by a caller",
            Work::Tidying => "tidying",
        };
        self.tally.answered(name, script.number);
        if script.number == 0 || script.number == CUT {
            self.tally.met(&format!("{name} with an allowance of {allowance}"));
        }
    }
}
