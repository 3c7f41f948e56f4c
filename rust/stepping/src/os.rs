//! The few functions of the operating system that watching a process takes (Linux), each with its error as a sentence.

use std::ffi::{c_int, c_long, c_void};
use std::io::Error;
use std::ptr::null_mut;

/// The functions as they are in C.
pub(crate) mod c {
    use super::*;

    extern "C" {
        pub fn fork() -> c_int;
        pub fn kill(pid: c_int, signal: c_int) -> c_int;
        pub fn mmap(at: *mut c_void, bytes: usize, access: c_int, kind: c_int, file: c_int, from: i64) -> *mut c_void;
        pub fn mprotect(at: *mut c_void, bytes: usize, access: c_int) -> c_int;
        pub fn munmap(at: *mut c_void, bytes: usize) -> c_int;
        pub fn ptrace(request: c_int, ...) -> c_long;
        pub fn raise(signal: c_int) -> c_int;
        pub fn sched_getaffinity(pid: c_int, bytes: usize, mask: *mut Processors) -> c_int;
        pub fn sched_setaffinity(pid: c_int, bytes: usize, mask: *const Processors) -> c_int;
        pub fn signal(signal: c_int, handler: extern "C" fn(c_int)) -> usize;
        pub fn waitpid(pid: c_int, status: *mut c_int, options: c_int) -> c_int;
        pub fn _exit(status: c_int) -> !;
    }
}

/// A set of processors, a bit each.
pub(crate) type Processors = [u64; 16];

const TRACE_ME: c_int = 0;
const CONTINUE: c_int = 7;
const SINGLE_STEP: c_int = 9;
const SET_OPTIONS: c_int = 0x4200;
const GET_SIGNAL: c_int = 0x4202;
const GET_REGISTERS: c_int = 0x4204;
const GENERAL_REGISTERS: usize = 1;
const KILL_WITH_PARENT: usize = 0x10_0000;
const SIGKILL: c_int = 9;
const SIGSTOP: c_int = 19;
/// An address that may not be touched was.
pub const SIGSEGV: i32 = 11;
/// Tells a child to shut its guarded words again.
pub const SHUT: i32 = 10;
pub const READ: c_int = 1;
pub const READ_WRITE: c_int = 1 | 2;
const SHARED_ANONYMOUS: c_int = 1 | 0x20;

/// A process.
#[derive(Clone, Copy)]
pub struct Pid(c_int);

/// What a process that was waited for has done.
#[derive(Clone, Copy, Debug, PartialEq, Eq)]
pub enum State {
    /// It stands still, by a signal.
    Stopped(i32),
    Exited(i32),
    Killed(i32),
}

/// How a child says that it may not be watched, and that its words cannot be guarded.
pub const NOT_TRACED: i32 = 77;
pub const NOT_GUARDED: i32 = 78;

fn failed(what: &str) -> String {
    format!("{what}: {}", Error::last_os_error())
}

/// Memory that this process and its children see alike.
pub fn map_shared(bytes: usize) -> Result<*mut u32, String> {
    // SAFETY: a new mapping anywhere overlaps nothing.
    let at = unsafe { c::mmap(null_mut(), bytes, READ_WRITE, SHARED_ANONYMOUS, -1, 0) };
    if at as isize == -1 {
        return Err(failed("there is no memory to share with a child"));
    }
    Ok(at.cast())
}

/// Gives back what `map_shared` gave.
///
/// # Safety
/// The memory is of `map_shared` with this length, and is not used any more.
pub unsafe fn unmap(at: *mut u32, bytes: usize) {
    c::munmap(at.cast(), bytes);
}

/// Starts a child that asks to be watched, stands still, does its work and ends.
///
/// # Safety
/// The work does nothing that a child of a process with threads must not do: it neither allocates nor panics.
pub unsafe fn start(work: impl FnOnce()) -> Result<Pid, String> {
    match c::fork() {
        -1 => Err(failed("no child process could be started")),
        0 => {
            if c::ptrace(TRACE_ME, 0, null_mut::<c_void>(), null_mut::<c_void>()) == -1 {
                c::_exit(NOT_TRACED);
            }
            c::raise(SIGSTOP);
            work();
            c::_exit(0)
        }
        pid => Ok(Pid(pid)),
    }
}

/// Waits until the process stops or ends.
pub fn wait(pid: Pid) -> Result<State, String> {
    let mut status = 0;
    // SAFETY: the status is a number of ours.
    if unsafe { c::waitpid(pid.0, &mut status, 0) } != pid.0 {
        return Err(failed("a child process cannot be waited for"));
    }
    Ok(match (status & 0x7F, status >> 8 & 0xFF) {
        (0, code) => State::Exited(code),
        (0x7F, signal) => State::Stopped(signal),
        (signal, _) => State::Killed(signal),
    })
}

/// How far a process that stands still is let go.
#[derive(Clone, Copy)]
pub enum Go {
    OneInstruction,
    On,
}

/// Lets a process go that stands still; a signal, if it is not 0, comes first.
pub fn go(pid: Pid, how: Go, signal: i32) -> Result<(), String> {
    let request = match how {
        Go::OneInstruction => SINGLE_STEP,
        Go::On => CONTINUE,
    };
    // SAFETY: the request takes no memory of ours.
    match unsafe { c::ptrace(request, pid.0, null_mut::<c_void>(), signal as usize) } {
        -1 => Err(failed("a child process cannot be stepped through (ptrace)")),
        _ => Ok(()),
    }
}

/// The address at which a process stopped that touched what it may not.
pub fn touched(pid: Pid) -> Result<usize, String> {
    // What the system tells of a signal: 128 bytes, of which the third eight are the address.
    let mut told = [0usize; 16];
    // SAFETY: the request writes 128 bytes, which `told` has.
    match unsafe { c::ptrace(GET_SIGNAL, pid.0, null_mut::<c_void>(), told.as_mut_ptr()) } {
        -1 => Err(failed("a child process does not tell what it touched (ptrace)")),
        _ => Ok(told[2]),
    }
}

/// Which of the general registers holds the next instruction's address.
const COUNTER: usize = if cfg!(target_arch = "x86_64") { 16 } else { 32 };

/// The address of the next instruction of a process that stands still.
pub fn counter(pid: Pid) -> Result<usize, String> {
    let mut registers = [0usize; 64];
    let mut lent = Lent { at: registers.as_mut_ptr(), bytes: std::mem::size_of_val(&registers) };
    // SAFETY: the request writes no more than the lent bytes.
    match unsafe { c::ptrace(GET_REGISTERS, pid.0, GENERAL_REGISTERS, &mut lent as *mut Lent) } {
        -1 => Err(failed("a child process does not tell where it stands (ptrace)")),
        _ => Ok(registers[COUNTER]),
    }
}

/// Memory for the system to write in.
#[repr(C)]
struct Lent {
    at: *mut usize,
    bytes: usize,
}

/// Sees to it that a watched process does not outlive this one.
pub fn bind(pid: Pid) -> Result<(), String> {
    // SAFETY: the request takes no memory of ours.
    match unsafe { c::ptrace(SET_OPTIONS, pid.0, null_mut::<c_void>(), KILL_WITH_PARENT) } {
        -1 => Err(failed("a child process cannot be watched (ptrace)")),
        _ => Ok(()),
    }
}

/// Ends a process that has not ended, and takes note of it.
pub fn end(pid: Pid) {
    // SAFETY: the process is a child of ours that was not waited for to its end, so the number is still its own.
    unsafe { c::kill(pid.0, SIGKILL) };
    while let Ok(State::Stopped(_)) = wait(pid) {}
}
