//! Words that a process may not touch, so that it stops at each instruction that does.
//!
//! The child shuts its own view of the words and runs at full speed. Where an instruction touches them the watcher is
//! told. The child then opens them, by a handler of the signal, makes that one instruction, and shuts them again when
//! the watcher asks it to.

use crate::os::{c, NOT_GUARDED, READ, READ_WRITE, SHUT, SIGSEGV};
use std::ffi::c_int;
use std::sync::atomic::{AtomicI32, AtomicPtr, AtomicUsize, Ordering::Relaxed};

/// What is guarded against.
#[derive(Clone, Copy, Debug, PartialEq, Eq)]
pub enum Against {
    /// Instructions that write the words.
    Writing,
    /// Instructions that read or write them.
    Touching,
}

// A child guards one row of words, and says here to its own handlers which.
static AT: AtomicPtr<u32> = AtomicPtr::new(std::ptr::null_mut());
static BYTES: AtomicUsize = AtomicUsize::new(0);
static SHUT_ACCESS: AtomicI32 = AtomicI32::new(0);

/// Guards words of a mapping from its begin on, in the child that calls it. It neither allocates nor panics.
pub fn guard(words: &mut [u32], against: Against) {
    AT.store(words.as_mut_ptr(), Relaxed);
    BYTES.store(4 * words.len(), Relaxed);
    SHUT_ACCESS.store(if against == Against::Writing { READ } else { 0 }, Relaxed);
    // SAFETY: the handlers do nothing but `access`.
    unsafe {
        c::signal(SIGSEGV, open);
        c::signal(SHUT, shut);
    }
    shut(SHUT);
}

extern "C" fn open(_: c_int) {
    access(READ_WRITE);
}

extern "C" fn shut(_: c_int) {
    access(SHUT_ACCESS.load(Relaxed));
}

/// A child whose words cannot be guarded ends at once: it would otherwise pass unseen.
fn access(allowed: c_int) {
    // SAFETY: the guarded words are a mapping of their own.
    unsafe {
        if c::mprotect(AT.load(Relaxed).cast(), BYTES.load(Relaxed), allowed) != 0 {
            c::_exit(NOT_GUARDED);
        }
    }
}
