//! The compiled library, watched from one instruction to the next.
//!
//! A contract sees the pool at entry and at exit. It cannot tell that a word is written and written back in between,
//! or that another change is made and undone first. Here a call runs in a child process that stands still after every
//! instruction, or at every instruction that touches the pool, and the pool lies in memory that both processes see.
//! One instruction may change one word, and after k of them the pool must be that of a cut with allowance k. A walk
//! loads each of its words once.

pub mod call;
pub mod cases;
mod child;
mod guard;
mod kinds;
pub mod loads;
mod os;
pub mod run;
pub mod seat;
mod shared;
pub mod stand_ins;
pub mod suite;
pub mod watch;
