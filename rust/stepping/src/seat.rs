//! A processor for a watcher and its child: together on one, a step costs half of what it costs across two.

use crate::os::{c, Processors};
use std::sync::Mutex;

/// How many watchers sit on each processor.
static TAKEN: Mutex<[usize; 1024]> = Mutex::new([0; 1024]);

/// Keeps its thread, and the children that the thread starts, on the processor with the fewest watchers, until it is
/// dropped. Where the system does not allow it nothing else changes.
pub struct Seat {
    processor: usize,
    before: Processors,
}

impl Seat {
    pub fn take() -> Seat {
        let before = allowed();
        let mut taken = TAKEN.lock().unwrap_or_else(|poisoned| poisoned.into_inner());
        let free = (0..taken.len()).filter(|at| before[at / 64] >> (at % 64) & 1 == 1);
        let processor = free.min_by_key(|at| taken[*at]).unwrap_or(0);
        taken[processor] += 1;
        let mut alone: Processors = [0; 16];
        alone[processor / 64] = 1 << (processor % 64);
        allow(&alone);
        Seat { processor, before }
    }
}

impl Drop for Seat {
    fn drop(&mut self) {
        let mut taken = TAKEN.lock().unwrap_or_else(|poisoned| poisoned.into_inner());
        taken[self.processor] -= 1;
        allow(&self.before);
    }
}

/// The processors that this thread may use.
fn allowed() -> Processors {
    let mut all: Processors = [0; 16];
    // SAFETY: the call is given a set of ours and its length.
    unsafe { c::sched_getaffinity(0, size_of::<Processors>(), &mut all) };
    all
}

fn allow(processors: &Processors) {
    // SAFETY: as above.
    unsafe { c::sched_setaffinity(0, size_of::<Processors>(), processors) };
}
