//! The measure itself: programs that take a known number of bytes, and papers that state wrong figures.
#![cfg(target_arch = "x86_64")]

use stack::figures::{stated, Figures};
use stack::painted::{taken, Argument, Function};
use std::arch::global_asm;

global_asm!(
    // Takes nothing but its return address.
    ".globl stack_nothing",
    "stack_nothing: mov eax, 7",
    "ret",
    // A frame of 1,100 bytes, of which only the lowest is written, with what is asked for.
    ".globl stack_frame",
    "stack_frame: sub rsp, 1100",
    "mov [rsp], dil",
    "add rsp, 1100",
    "mov eax, edi",
    "ret",
    // Below the stack pointer, where a function that calls none may write 128 bytes.
    ".globl stack_below",
    "stack_below: mov byte ptr [rsp - 128], 0",
    "mov eax, 7",
    "ret",
    // One call more.
    ".globl stack_deeper",
    "stack_deeper: sub rsp, 8",
    "call stack_nothing",
    "add rsp, 8",
    "ret",
    // Its tenth argument, the fourth on the stack.
    ".globl stack_tenth",
    "stack_tenth: mov eax, [rsp + 32]",
    "ret",
    // The third word lent.
    ".globl stack_third_word",
    "stack_third_word: mov eax, [rsi + 8]",
    "mov dword ptr [rsi + 8], 0",
    "ret",
);

extern "C" {
    fn stack_nothing();
    fn stack_frame();
    fn stack_below();
    fn stack_deeper();
    fn stack_tenth();
    fn stack_third_word();
}

fn bytes(function: Function, numbers: &[u32]) -> (u32, usize) {
    let arguments: Vec<Argument> = numbers.iter().map(|number| Argument::Number(*number)).collect();
    // SAFETY: these functions touch nothing but their stack.
    let taken = unsafe { taken(function, &arguments) };
    (taken.number, taken.bytes)
}

#[test]
fn known_bytes_are_counted() {
    assert_eq!(bytes(stack_nothing, &[]), (7, 8));
    assert_eq!(bytes(stack_deeper, &[]), (7, 24));
    assert_eq!(bytes(stack_below, &[]), (7, 8 + 128));
}

/// Whatever is written, one of the two paints shows it.
#[test]
fn a_byte_written_with_the_paint_is_seen() {
    for value in 0..256 {
        assert_eq!(bytes(stack_frame, &[value]), (value, 8 + 1100));
    }
}

#[test]
fn arguments_on_the_stack_count() {
    let numbers: Vec<u32> = (1..=10).collect();
    assert_eq!(bytes(stack_tenth, &numbers), (10, 8 + 8 * 4));
    // An odd number of them is filled up, since the stack pointer is a multiple of 16 at a call.
    assert_eq!(bytes(stack_tenth, &[numbers, vec![11]].concat()), (10, 8 + 8 * 6));
}

#[test]
fn each_paint_gets_its_own_copy_of_lent_words() {
    let arguments = [Argument::Number(0), Argument::Words(vec![4, 5, 6])];
    // SAFETY: the function touches the third word lent.
    let taken = unsafe { taken(stack_third_word, &arguments) };
    assert_eq!((taken.number, taken.bytes), (6, 8));
}

fn faults(took: &[(&str, usize)], paper: &str) -> usize {
    let mut figures = Figures::default();
    took.iter().for_each(|(call, bytes)| figures.took(call, *bytes));
    figures.faults(&stated(paper)).len()
}

#[test]
fn wrong_figures_are_seen() {
    let took = [("gol_tidy", 700), ("gol_tidy", 640), ("gol_list", 96)];
    assert_eq!(faults(&took, " *   gol_tidy   700\n *   gol_list   96\n"), 0);
    assert_eq!(faults(&took, "| `gol_tidy` | 720 |\n| `gol_list` | 96 |\n"), 0);
    // Too few; long out of date; left out; for no call; above the limit, stated or not.
    assert_eq!(faults(&took, "gol_tidy 699\ngol_list 96"), 1);
    assert_eq!(faults(&took, "gol_tidy 800\ngol_list 96"), 1);
    assert_eq!(faults(&took, "gol_list 96"), 1);
    assert_eq!(faults(&took, "gol_tidy 700\ngol_list 96\ngol_other 8"), 1);
    assert_eq!(faults(&[("gol_tidy", 1025)], "gol_tidy 1,025"), 1);
    assert_eq!(faults(&[("gol_tidy", 1000)], "gol_tidy 1,025"), 1);
}
