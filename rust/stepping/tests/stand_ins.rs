//! Each way to watch sees each wrong program, and lets each harmless one pass.

use model::change::Request;
use model::shape::Shape;
use stepping::call::{Call, Script, Work};
use stepping::seat::Seat;
use stepping::stand_ins::{written_as_they_are, HARMLESS, WRONG};
use stepping::watch::{every_instruction, every_store, Program, Watcher};

/// A change from a fresh pool: 1,026 stores, of which most fill a new table word by word.
fn makes_tables() -> Call {
    let work = Work::Change(Request { domain: 0, start: 0x1000, length: 64, right: 2 });
    Call { shape: Shape::new(1, 1, 1), work, allowance: u32::MAX }
}

/// A change from a fresh pool: four stores of root words.
fn paints_blocks() -> Call {
    let work = Work::Change(Request { domain: 0, start: 0, length: 1 << 24, right: 1 });
    Call { shape: Shape::new(1, 0, 0), work, allowance: u32::MAX }
}

const WAYS: [Watcher; 2] = [every_instruction, every_store];

/// What a watcher says of a program that makes a call on a fresh pool.
fn watched(watcher: Watcher, program: Program, call: &Call) -> Result<u64, String> {
    let _seat = Seat::take();
    let pool = call.shape.fresh();
    let script = Script::whole(call, &pool).expect("the library's cuts are in order").with(call.allowance);
    watcher(program, call, &pool, &script).map(|watched| watched.stores).map_err(|difference| difference.0)
}

fn must_be_seen(watcher: Watcher, what: &str, told: &str, program: Program, call: &Call) {
    match watched(watcher, program, call) {
        Ok(_) => panic!("a program that {what} is let pass in {call:x?}"),
        Err(seen) => assert!(seen.contains(told), "a program that {what} is seen for another reason: {seen}"),
    }
}

#[test]
#[cfg_attr(not(linked), ignore = "no library is linked that could be watched")]
fn every_wrong_program_is_seen() {
    for (what, told, program) in WRONG {
        for watcher in WAYS {
            must_be_seen(watcher, what, told, *program, &makes_tables());
            must_be_seen(watcher, what, told, *program, &paints_blocks());
        }
        println!("seen: a program that {what}");
    }
}

#[test]
#[cfg_attr(not(linked), ignore = "no library is linked that could be watched")]
fn a_refused_call_that_writes_and_writes_back_is_seen() {
    let (what, _, program) = WRONG[0];
    let refused = Call { shape: Shape::new(1, 0, 1), ..makes_tables() };
    for watcher in WAYS {
        must_be_seen(watcher, what, "after 0 stores, which are all", program, &refused);
    }
}

/// The pool is the same after every instruction, so that only the other way can see it.
#[test]
#[cfg_attr(not(linked), ignore = "no library is linked that could be watched")]
fn a_word_that_is_written_with_what_it_holds_is_seen() {
    let told = "was written with what it holds";
    must_be_seen(every_store, "writes words as they are", told, written_as_they_are, &paints_blocks());
    assert_eq!(watched(every_instruction, written_as_they_are, &paints_blocks()), Ok(4));
}

#[test]
#[cfg_attr(not(linked), ignore = "no library is linked that could be watched")]
fn every_harmless_program_passes() {
    let calls = [(paints_blocks(), 4), (paints_blocks().with(1), 1), (makes_tables().with(40), 40)];
    for (what, program) in HARMLESS {
        for (call, stores) in &calls {
            for watcher in WAYS {
                assert_eq!(watched(watcher, *program, call), Ok(*stores), "a program that {what}");
            }
        }
    }
}
