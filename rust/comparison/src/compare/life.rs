//! A supervisor's life: changes that finish or are cut, flushes, resets, tidyings, and checks between them. It holds
//! what the paper demands of a whole series: what right a word may have, and that a buffer gives the walk's verdict.

use super::series::fresh;
use super::{Run, MARK};
use crate::given::requests;
use crate::subject::CUT;
use crate::{hold, Difference};
use model::access::kind_of;
use model::buffer::{Access, BUFFER_WORDS};
use model::change::Request;
use model::region::Region;
use model::shape::Shape;
use model::walk::{lookup, read};

/// A change that was made, whole or in part.
struct Event {
    domain: u32,
    region: Region,
    right: u32,
    finished: bool,
}

struct Life {
    shape: Shape,
    pool: Vec<u32>,
    buffer: Vec<u32>,
    events: Vec<Event>,
}

/// `count` lives of `length` happenings.
pub fn lives(run: &mut Run, count: usize, length: usize) -> Result<(), Difference> {
    for turn in 0..count {
        let shape = [Shape::new(2, 3, 6), Shape::new(4, 4, 8), Shape::new(1, 2, 4), Shape::new(4, 8, 64)][turn % 4];
        let pool = fresh(run, shape)?;
        let mut life = Life { shape, pool, buffer: vec![0; BUFFER_WORDS], events: Vec::new() };
        for _ in 0..length {
            life.happening(run)?;
        }
    }
    Ok(())
}

impl Life {
    fn happening(&mut self, run: &mut Run) -> Result<(), Difference> {
        match run.rng.below(12) {
            0 => self.reset(run),
            1 | 2 => self.tidy(run),
            3..=5 => self.change(run),
            6 => self.leave_unwanted(run),
            _ => self.check(run),
        }
    }

    /// A reset empties the buffer; the pool keeps its words.
    fn reset(&mut self, run: &mut Run) -> Result<(), Difference> {
        self.buffer.fill(0);
        run.tally.met("life: a reset");
        Ok(())
    }

    fn tidy(&mut self, run: &mut Run) -> Result<(), Difference> {
        let allowance = if run.rng.once_in(2) { u32::MAX } else { run.rng.below(2) };
        let number = run.subject.tidy(&mut self.pool, &self.shape.words(), allowance, &mut []);
        hold!(number == 0 || number == CUT, "life: a tidying answers {number}");
        run.tally.met(if number == 0 { "life: tidied" } else { "life: a tidying is cut" });
        self.hold_words(run, None)
    }

    fn change(&mut self, run: &mut Run) -> Result<(), Difference> {
        let domains = self.shape.domains;
        let near = run.rng.once_in(2);
        let request = if near { requests::near(&mut run.rng, domains) } else { requests::any(&mut run.rng, domains) };
        let most = run.rng.pick(&[4, 80, 1200]);
        let allowance = if run.rng.once_in(2) { u32::MAX } else { run.rng.below(most) };
        self.one_change(run, request, allowance)
    }

    /// Changes of one page, of which the last is cut where its leaf is not wanted, if there was room for the leaf.
    fn leave_unwanted(&mut self, run: &mut Run) -> Result<(), Difference> {
        let (domain, page) = (run.rng.below(self.shape.domains), 4096 * run.rng.below(3));
        let set = |start, length, right| Request { domain, start, length, right };
        self.one_change(run, set(page, 4096, 0), u32::MAX)?;
        self.one_change(run, set(page + 0x100, 0x100, 1), u32::MAX)?;
        let allowance = 3 + run.rng.below(3);
        self.one_change(run, set(page, 0x300, 1), allowance)
    }

    /// A change, whole or cut, and then the flush of its region.
    fn one_change(&mut self, run: &mut Run, request: Request, allowance: u32) -> Result<(), Difference> {
        let domains = self.shape.domains;
        let region = request.region(domains);
        if region.is_ok() {
            self.checks_in(run, request)?;
        }
        let number = run.subject.change(&mut self.pool, &self.shape.words(), request, allowance, &mut []);
        hold!(number != 1 && number != 6, "life: {request:x?} answers {number}");
        if number == 0 || number == CUT {
            let region = region.expect("it was not refused");
            let finished = number == 0;
            run.tally.met(if finished { "life: changed" } else { "life: a change is cut" });
            self.events.push(Event { domain: request.domain, region, right: request.right, finished });
            let flushed = run.subject.flush_region(&mut self.buffer, request.domain, request.start, request.length);
            hold!(flushed == 0, "life: the flush answers {flushed}");
            run.tally.region("life: change and flush", request.start, request.length);
            self.checks_in(run, request)?;
        }
        if number == 7 {
            run.tally.met("life: refused 7 after a cut");
            run.subject.tidy(&mut self.pool, &self.shape.words(), u32::MAX, &mut []);
            let again = run.subject.change(&mut self.pool.clone(), &self.shape.words(), request, allowance, &mut []);
            hold!(again != 7, "life: refused 7 after a tidying");
        }
        self.hold_words(run, Some(request))
    }

    fn check(&mut self, run: &mut Run) -> Result<(), Difference> {
        let rng = &mut run.rng;
        let address = if rng.once_in(2) { 4 * rng.below(4096) } else { requests::address(rng) & !3 };
        let domain = rng.below(self.shape.domains);
        self.one_check(run, domain, address)
    }

    /// Checks in a region that is to change, so that the buffer holds what will be stale, or that has changed.
    fn checks_in(&mut self, run: &mut Run, request: Request) -> Result<(), Difference> {
        let last = request.start.wrapping_add(request.length - 1);
        let within = request.start.wrapping_add(run.rng.below(request.length));
        for address in [request.start, within, last] {
            self.one_check(run, request.domain, address & !3)?;
        }
        Ok(())
    }

    /// The verdict through the buffer is that of a walk.
    fn one_check(&mut self, run: &mut Run, domain: u32, address: u32) -> Result<(), Difference> {
        let access = Access { domain, kind: run.rng.below(3), size: 4, address };
        let mut out = [MARK; 2];
        let number = run.subject.check(&self.pool, &self.shape.words(), &mut self.buffer, access, &mut out);
        let found = lookup(&self.pool, self.shape, access.domain, address);
        let (Ok(found), Ok(kind)) = (found, kind_of(access.kind, access.size)) else {
            crate::differ!("life: a walk of the pool meets a bad entry");
        };
        let pass = u32::from(kind.passes(found.right));
        hold!(number == 0 && out[0] == pass, "life: {access:x?} answers {number}, verdict {}, not {pass}", out[0]);
        run.tally.met(if out[1] == 0 { "life: a slot answers" } else { "life: a miss" });
        Ok(())
    }

    /// Words here and there have a right that a change of this life gave them: the last finished one that covers the
    /// word, or a later one that was cut.
    fn hold_words(&self, run: &mut Run, request: Option<Request>) -> Result<(), Difference> {
        let Some(state) = read(&self.pool, self.shape) else {
            crate::differ!("life: the pool is not sound");
        };
        for _ in 0..12 {
            let any = requests::address(&mut run.rng);
            let start = request.map_or(any, |request| request.start);
            let address = [any, start, start.wrapping_sub(4), start.wrapping_add(4 * run.rng.below(64))];
            let word = run.rng.pick(&address) / 4;
            for domain in 0..self.shape.domains {
                let right = state.rights[domain as usize].at(word);
                hold!(self.may_have(domain, word, right), "life: domain {domain} has {right} on word {word:#x}");
            }
        }
        Ok(())
    }

    fn may_have(&self, domain: u32, word: u32, right: u32) -> bool {
        let covering = |event: &&Event| event.domain == domain && event.region.covers(word);
        for event in self.events.iter().rev().filter(covering) {
            if event.right == right {
                return true;
            }
            if event.finished {
                return false;
            }
        }
        right == 0
    }
}
