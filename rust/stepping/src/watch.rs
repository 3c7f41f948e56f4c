//! A program that makes a call, watched in one of two ways: after every instruction; or at every instruction that
//! writes the pool, which is quicker and sees a word that is written with what it holds too.

use crate::call::{Call, Script, Store};
use crate::child::Child;
use crate::guard::{guard, Against};
use crate::shared::Shared;
use comparison::Difference;
use std::collections::BTreeSet;

/// What makes a call: the library, or something that stands in for it and may look at the script. It runs in the child
/// process of one with threads, so it neither allocates nor panics.
pub type Program = fn(&Call, &Script, &mut [u32], &mut [u32]) -> u32;

/// A way to watch a program that makes a call on a pool, of which the script says what it must do.
pub type Watcher = fn(Program, &Call, &[u32], &Script) -> Result<Watched, Difference>;

/// How much was watched.
#[derive(Default)]
pub struct Watched {
    pub instructions: u64,
    pub stores: u64,
    /// Where the instructions stand that wrote the pool, if only these were watched.
    pub writers: BTreeSet<usize>,
}

impl Watched {
    pub fn add(&mut self, other: Watched) {
        self.instructions += other.instructions;
        self.stores += other.stores;
        self.writers.extend(other.writers);
    }
}

/// The library itself.
pub fn library(call: &Call, _: &Script, pool: &mut [u32], out: &mut [u32]) -> u32 {
    call.make(pool, out)
}

/// Compares the pool after every instruction.
pub fn every_instruction(program: Program, call: &Call, pool: &[u32], script: &Script) -> Result<Watched, Difference> {
    let stepped = || {
        let mut watching = Watching::start(program, call, pool, script, false)?;
        while watching.child.step()? {
            watching.watched.instructions += 1;
            watching.follow(None)?;
        }
        watching.ended()
    };
    stepped().map_err(|told| Difference(format!("{call:x?}: {told}")))
}

/// Compares the pool after every instruction that writes it; in between it cannot be written.
pub fn every_store(program: Program, call: &Call, pool: &[u32], script: &Script) -> Result<Watched, Difference> {
    let guarded = || {
        let mut watching = Watching::start(program, call, pool, script, true)?;
        while let Some(touch) = watching.child.touch()? {
            let at = watching.lent.word_at(touch.address)?;
            watching.watched.instructions += 1;
            watching.watched.writers.insert(touch.by);
            watching.follow(Some(at))?;
        }
        watching.ended()
    };
    guarded().map_err(|told| Difference(format!("{call:x?}: {told}")))
}

/// A call that is being made.
struct Watching<'a> {
    child: Child,
    lent: Shared,
    answer: Shared,
    last: Vec<u32>,
    script: &'a Script,
    watched: Watched,
}

impl<'a> Watching<'a> {
    /// Starts the child, with the pool guarded against writing or not.
    fn start(
        program: Program,
        call: &Call,
        pool: &[u32],
        script: &'a Script,
        guarded: bool,
    ) -> Result<Watching<'a>, String> {
        let (lent, answer) = (Shared::new(pool.len())?, Shared::new(2)?);
        lent.words_mut().copy_from_slice(pool);
        let work = || {
            let (number, out) = answer.words_mut().split_at_mut(1);
            if guarded {
                guard(lent.words_mut(), Against::Writing);
            }
            number[0] = program(call, script, lent.words_mut(), out);
        };
        // SAFETY: programs neither allocate nor panic.
        let child = unsafe { Child::start(work)? };
        Ok(Watching { child, lent, answer, last: pool.to_vec(), script, watched: Watched::default() })
    }

    /// An instruction was made, which may have written a word: if it did, it made the next store and nothing else.
    fn follow(&mut self, written: Option<usize>) -> Result<(), String> {
        let now = self.lent.words();
        if now == self.last {
            return match written {
                Some(at) => Err(format!("word {at:#x} was written with what it holds")),
                None => Ok(()),
            };
        }
        let made = self.watched.stores;
        let changed: Vec<usize> = (0..now.len()).filter(|at| now[*at] != self.last[*at]).collect();
        if changed.len() > 1 {
            return Err(format!("after {made} stores one instruction changed the words {changed:x?}"));
        }
        let store = Store { at: changed[0], value: now[changed[0]] };
        if written.is_some_and(|at| at != store.at) {
            return Err(format!("after {made} stores one instruction wrote more than the word of {store:x?}"));
        }
        match self.script.stores.get(made as usize) {
            Some(due) if *due == store => {}
            Some(due) => return Err(format!("after {made} stores {due:x?} is due, and {store:x?} was made")),
            None => return Err(format!("after {made} stores, which are all, {store:x?} was made")),
        }
        self.last[store.at] = store.value;
        self.watched.stores += 1;
        Ok(())
    }

    /// At the end all stores of the script were made, and the answer is the script's.
    fn ended(self) -> Result<Watched, String> {
        let (made, due) = (self.watched.stores, self.script.stores.len() as u64);
        if made != due {
            return Err(format!("it ended after {made} stores of {due}"));
        }
        let (answer, must) = (self.answer.words(), [self.script.number, self.script.result]);
        if answer != must {
            return Err(format!("number and result are {answer:?}, and must be {must:?}"));
        }
        Ok(self.watched)
    }
}
