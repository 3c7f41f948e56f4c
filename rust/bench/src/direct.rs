//! Lookups and checks with nothing between the case and the call.
//!
//! Through the comparison's subject a call's last arguments are passed on as one 16-byte load right after they were
//! stored one by one, for which a processor waits longer than a lookup takes, on either side.

use comparison::subject::{Library, Subject, Twin};
use model::buffer::Access;

pub trait Direct: Subject {
    fn look(pool: &[u32], shape: &[u32], domain: u32, address: u32, out: &mut [u32]) -> u32;
    fn verdict(pool: &[u32], shape: &[u32], buffer: &mut [u32], access: Access, out: &mut [u32]) -> u32;
}

/// The calls of a crate that has all functions with the C interface's parameters.
macro_rules! direct {
    ($name:ident, $($functions:tt)*) => {
        impl Direct for $name {
            #[inline(always)]
            fn look(pool: &[u32], s: &[u32], domain: u32, address: u32, out: &mut [u32]) -> u32 {
                $($functions)*::lookup(pool, s, domain, address, out)
            }

            #[inline(always)]
            fn verdict(pool: &[u32], s: &[u32], buffer: &mut [u32], a: Access, out: &mut [u32]) -> u32 {
                $($functions)*::check(pool, s, buffer, a.domain, a.kind, a.size, a.address, out)
            }
        }
    };
}

direct!(Library, goleuthan::words);
direct!(Twin, twin);
