//! How many bytes of stack a call of the library takes, on x86-64.
//!
//! A call is made on a stack of its own, which was painted before: every byte holds one value. The lowest byte that
//! holds another one afterwards is the deepest that the call, or anything it called, has written. What is counted
//! begins where the caller's stack ended: arguments that are passed on the stack and the return address belong to the
//! call. Each call is made twice, on two paints, so that a byte written with what it holds is seen too.

#[cfg(shipped)]
pub mod calls;
pub mod figures;
#[cfg(target_arch = "x86_64")]
pub mod painted;

/// What a supervisor can spare for a call.
pub const LIMIT: usize = 1024;
