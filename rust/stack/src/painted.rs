//! The painted stack, and a call on it.

use std::arch::global_asm;

/// The address of a function with C's calling convention, whose result is a number of 32 bits.
pub type Function = unsafe extern "C" fn();

/// What is lent or handed over: a number, or words by their pointer and their count.
#[derive(Clone, Debug)]
pub enum Argument {
    Number(u32),
    Words(Vec<u32>),
}

/// What a call answered, and how many bytes of stack it took.
#[derive(Clone, Copy, Debug, PartialEq, Eq)]
pub struct Taken {
    pub number: u32,
    pub bytes: usize,
}

/// More than any call takes, so that one which takes too much is measured too.
const ROOM: usize = 1 << 15;
const PAINTS: [u8; 2] = [0x5A, 0xA5];
/// As many arguments are passed in registers.
const IN_REGISTERS: usize = 6;

global_asm!(
    // stack_on(top, function, words, count): calls the function on the stack that ends at `top`, a multiple of 16,
    // with the `count` words from `words` on, at least six, as its arguments.
    ".globl stack_on",
    "stack_on:",
    "push rbp",
    "mov rbp, rsp",
    "mov rsp, rdi",
    "mov rax, rsi",
    "mov r10, rdx",
    "mov r11, rcx",
    // At the call the stack pointer is a multiple of 16.
    "test rcx, 1",
    "jz 2f",
    "sub rsp, 8",
    "2:",
    "cmp r11, 6",
    "jbe 3f",
    "push qword ptr [r10 + 8 * r11 - 8]",
    "dec r11",
    "jmp 2b",
    "3:",
    "mov rdi, [r10]",
    "mov rsi, [r10 + 8]",
    "mov rdx, [r10 + 16]",
    "mov rcx, [r10 + 24]",
    "mov r8, [r10 + 32]",
    "mov r9, [r10 + 40]",
    "call rax",
    "mov rsp, rbp",
    "pop rbp",
    "ret",
);

extern "C" {
    fn stack_on(top: *mut u8, function: Function, words: *const u64, count: usize) -> u32;
}

/// Makes a call on each paint, each time on copies of its lent words.
///
/// # Safety
/// The function takes these arguments, reads and writes no other memory but its stack, and returns.
pub unsafe fn taken(function: Function, arguments: &[Argument]) -> Taken {
    let [one, other] = PAINTS.map(|paint| {
        let mut lent: Vec<Argument> = arguments.to_vec();
        // SAFETY: as the caller says; the copies live until the call has returned.
        unsafe { on(paint, function, &mut lent) }
    });
    assert_eq!(one.number, other.number, "a call answers differently on another stack");
    Taken { number: one.number, bytes: one.bytes.max(other.bytes) }
}

unsafe fn on(paint: u8, function: Function, lent: &mut [Argument]) -> Taken {
    let mut words: Vec<u64> = lent.iter_mut().flat_map(passed).collect();
    words.resize(words.len().max(IN_REGISTERS), 0);
    let mut stack = vec![paint; ROOM + 16];
    let spare = stack.as_ptr().align_offset(16);
    let room = &mut stack[spare..spare + ROOM];
    let top = room.as_mut_ptr_range().end;
    // SAFETY: the stack is aligned, ours, and larger than what any call takes; the rest is the caller's word.
    let number = unsafe { stack_on(top, function, words.as_ptr(), words.len()) };
    let untouched = room.iter().take_while(|byte| **byte == paint).count();
    assert!(untouched > 0, "a call takes more than {ROOM} bytes of stack");
    Taken { number, bytes: ROOM - untouched }
}

/// An argument as the words that C passes.
fn passed(argument: &mut Argument) -> Vec<u64> {
    match argument {
        Argument::Number(number) => vec![u64::from(*number)],
        Argument::Words(words) => vec![words.as_mut_ptr() as u64, words.len() as u64],
    }
}
