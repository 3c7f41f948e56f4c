//! A safe face of Goleuthan, the proved table of word-level rights, for Rust.
//!
//! The pool is the caller's memory, borrowed as a slice of words for as long as a [`Table`] lives. Nothing is kept
//! elsewhere, and only [`Table::runs`] allocates. What the memory must do for the table to outlive a loss of power is
//! told in `include/goleuthan.h`, what a buffer's user owes at [`LookasideBuffer`], and who may set rights at
//! [`Regions`].
//!
//! ```
//! use goleuthan::{Answer, Request, Right, Shape, Table};
//!
//! let shape = Shape::new(1, 1, 1);
//! let mut pool = vec![0; shape.pool_words()];
//! let mut table = Table::fresh(&mut pool, shape)?;
//! let request = Request { domain: 0, start: 0x1000, length: 64, right: Right::ReadWrite };
//! assert_eq!(table.change(request, u32::MAX)?, Answer::Done { stores: 1026 });
//! let found = table.lookup(0, 0x103F)?;
//! assert_eq!((found.right, found.loads), (Right::ReadWrite, 3));
//! assert_eq!(found.range(), 0x1000..=0x103F);
//! # Ok::<(), goleuthan::Refusal>(())
//! ```
#![deny(unsafe_code, missing_docs)]

mod buffer;
mod gates;
mod refusal;
mod regions;
mod runs;
mod stack;
mod stretches;
mod table;

#[cfg(linked)]
#[allow(unsafe_code)]
pub mod words;
/// The same functions on a machine that cannot link the library, which is for x86-64.
#[cfg(not(linked))]
pub use emulated as words;

/// Whether calls go straight into the library; where they do not, their times say nothing.
pub const LINKED: bool = cfg!(linked);

pub use buffer::{Level, LookasideBuffer, Slot};
pub use gates::{Gate, GateKind, Gates};
pub use refusal::Refusal;
pub use regions::{Exports, OwnedRegion, Regions};
pub use runs::Run;
pub use stack::{CallStack, Frame};
pub use stretches::{Stretch, Stretches};
pub use table::{Access, Answer, Found, Request, Right, Shape, Table, Verdict};
