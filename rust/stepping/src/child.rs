//! A child process that stands still until it is let go by one instruction.

use crate::os::{self, Go, Pid, State, SHUT, SIGSEGV};

/// Stopped by the last step.
const SIGTRAP: i32 = 5;
const SIGSTOP: i32 = 19;

/// A watched process; it is ended when it is dropped.
pub struct Child {
    pid: Pid,
    ended: bool,
    /// Its guarded words are open, since it has just touched them.
    open: bool,
}

/// An instruction that touched guarded words: where it stands, and the address that it touched.
#[derive(Clone, Copy)]
pub struct Touch {
    pub by: usize,
    pub address: usize,
}

impl Child {
    /// A child that stands still before its work.
    ///
    /// # Safety
    /// The work neither allocates nor panics.
    pub unsafe fn start(work: impl FnOnce()) -> Result<Child, String> {
        let pid = os::start(work)?;
        let mut child = Child { pid, ended: false, open: false };
        match child.wait()? {
            State::Stopped(SIGSTOP) => {}
            State::Exited(os::NOT_TRACED) => {
                return Err("this machine forbids a process to watch its child (ptrace is refused), so nothing can be \
                            stepped through here: run the tests where ptrace is allowed"
                    .to_string())
            }
            other => return Err(format!("a child process could not be watched from its start: {other:?}")),
        }
        os::bind(pid)?;
        Ok(child)
    }

    /// Makes one instruction; false where the process ended by it, as it should.
    pub fn step(&mut self) -> Result<bool, String> {
        match self.go(Go::OneInstruction, 0)? {
            State::Stopped(SIGTRAP) => Ok(true),
            State::Exited(0) => Ok(false),
            other => Err(format!("the call ended badly: {other:?}")),
        }
    }

    /// Goes on until an instruction touches guarded words (guard.rs), and makes it. None where the process ended first,
    /// as it should.
    pub fn touch(&mut self) -> Result<Option<Touch>, String> {
        let signal = if self.open { SHUT } else { 0 };
        match self.go(Go::On, signal)? {
            State::Stopped(SIGSEGV) => {}
            State::Exited(0) => return Ok(None),
            other => return Err(format!("the call ended badly: {other:?}")),
        }
        let touch = Touch { address: os::touched(self.pid)?, by: os::counter(self.pid)? };
        self.one_step(SIGSEGV)?;
        while os::counter(self.pid)? != touch.by {
            self.one_step(0)?;
        }
        self.one_step(0)?;
        self.open = true;
        Ok(Some(touch))
    }

    /// One instruction, of the call or of a handler, after which the process must stand still.
    fn one_step(&mut self, signal: i32) -> Result<(), String> {
        match self.go(Go::OneInstruction, signal)? {
            State::Stopped(SIGTRAP) => Ok(()),
            other => Err(format!("an instruction that touches the pool ended badly: {other:?}")),
        }
    }

    fn go(&mut self, how: Go, signal: i32) -> Result<State, String> {
        os::go(self.pid, how, signal)?;
        self.wait()
    }

    fn wait(&mut self) -> Result<State, String> {
        let state = os::wait(self.pid)?;
        self.ended = !matches!(state, State::Stopped(_));
        Ok(state)
    }
}

impl Drop for Child {
    fn drop(&mut self) {
        if !self.ended {
            os::end(self.pid);
        }
    }
}
