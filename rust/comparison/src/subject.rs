//! What is compared with the model: anything with the library's functions, on slices.

use model::buffer::Access;
use model::change::Request;
use model::regions::Asked;

/// A change or a tidying was cut.
pub const CUT: u32 = 100;
/// A lent shape or state has the wrong length.
pub const LENGTH: u32 = model::face::LENGTH;

pub trait Subject {
    fn fresh(&self, pool: &mut [u32], shape: &[u32]) -> u32;
    fn change(&self, pool: &mut [u32], shape: &[u32], request: Request, allowance: u32, out: &mut [u32]) -> u32;
    fn tidy(&self, pool: &mut [u32], shape: &[u32], allowance: u32, out: &mut [u32]) -> u32;
    fn lookup(&self, pool: &[u32], shape: &[u32], domain: u32, address: u32, out: &mut [u32]) -> u32;
    fn check(&self, pool: &[u32], shape: &[u32], buffer: &mut [u32], access: Access, out: &mut [u32]) -> u32;
    fn list(&self, pool: &[u32], shape: &[u32], from: u32, runs: &mut [u32], out: &mut [u32]) -> u32;
    fn step(&self, pool: &[u32], shape: &[u32], states: Step, out: &mut [u32]) -> u32;
    fn flush_all(&self, buffer: &mut [u32]) -> u32;
    fn flush_domain(&self, buffer: &mut [u32], domain: u32) -> u32;
    fn flush_region(&self, buffer: &mut [u32], domain: u32, start: u32, length: u32) -> u32;
    fn set_switch_gate(&self, d: u32, gates: &mut [u32], domain: u32, address: u32, destination: u32) -> u32;
    fn set_return_gate(&self, d: u32, gates: &mut [u32], domain: u32, address: u32) -> u32;
    fn remove_gate(&self, d: u32, gates: &mut [u32], domain: u32, address: u32) -> u32;
    fn make_region(&self, regions: &mut [u32], asked: Asked, owner: u32) -> u32;
    fn pass_region(&self, regions: &mut [u32], asked: Asked, owner: u32) -> u32;
    fn give_export(&self, regions: &mut [u32], asked: Asked, receiver: u32, right: u32) -> u32;
    fn change_by(&self, pool: &mut [u32], shape: &[u32], by: By, out: &mut [u32]) -> u32;
}

/// What a fetch step is given beside the pool.
pub struct Step<'a> {
    pub gates: &'a [u32],
    pub stack: &'a mut [u32],
    pub address: u32,
    pub target: u32,
}

/// What a change by a caller is given beside the pool.
#[derive(Clone, Copy)]
pub struct By<'a> {
    pub regions: &'a [u32],
    pub caller: u32,
    pub request: Request,
    pub allowance: u32,
}

/// Makes a subject of a crate that has all functions with the C interface's parameters.
macro_rules! subject {
    ($name:ident, $($functions:tt)*) => {
        impl Subject for $name {
            fn fresh(&self, pool: &mut [u32], shape: &[u32]) -> u32 {
                $($functions)*::fresh(pool, shape)
            }

            fn change(&self, pool: &mut [u32], shape: &[u32], r: Request, allowance: u32, out: &mut [u32]) -> u32 {
                $($functions)*::change(pool, shape, r.domain, r.start, r.length, r.right, allowance, out)
            }

            fn tidy(&self, pool: &mut [u32], shape: &[u32], allowance: u32, out: &mut [u32]) -> u32 {
                $($functions)*::tidy(pool, shape, allowance, out)
            }

            fn lookup(&self, pool: &[u32], shape: &[u32], domain: u32, address: u32, out: &mut [u32]) -> u32 {
                $($functions)*::lookup(pool, shape, domain, address, out)
            }

            fn check(&self, pool: &[u32], shape: &[u32], buffer: &mut [u32], a: Access, out: &mut [u32]) -> u32 {
                $($functions)*::check(pool, shape, buffer, a.domain, a.kind, a.size, a.address, out)
            }

            fn list(&self, pool: &[u32], shape: &[u32], from: u32, runs: &mut [u32], out: &mut [u32]) -> u32 {
                $($functions)*::list(pool, shape, from, runs, out)
            }

            fn step(&self, pool: &[u32], shape: &[u32], step: Step, out: &mut [u32]) -> u32 {
                $($functions)*::step(pool, shape, step.gates, step.stack, step.address, step.target, out)
            }

            fn flush_all(&self, buffer: &mut [u32]) -> u32 {
                $($functions)*::flush_all(buffer)
            }

            fn flush_domain(&self, buffer: &mut [u32], domain: u32) -> u32 {
                $($functions)*::flush_domain(buffer, domain)
            }

            fn flush_region(&self, buffer: &mut [u32], domain: u32, start: u32, length: u32) -> u32 {
                $($functions)*::flush_region(buffer, domain, start, length)
            }

            fn set_switch_gate(&self, d: u32, gates: &mut [u32], domain: u32, address: u32, to: u32) -> u32 {
                $($functions)*::set_switch_gate(d, gates, domain, address, to)
            }

            fn set_return_gate(&self, d: u32, gates: &mut [u32], domain: u32, address: u32) -> u32 {
                $($functions)*::set_return_gate(d, gates, domain, address)
            }

            fn remove_gate(&self, d: u32, gates: &mut [u32], domain: u32, address: u32) -> u32 {
                $($functions)*::remove_gate(d, gates, domain, address)
            }

            fn make_region(&self, regions: &mut [u32], a: Asked, owner: u32) -> u32 {
                $($functions)*::make_region(a.d, regions, a.caller, owner, a.start, a.length)
            }

            fn pass_region(&self, regions: &mut [u32], a: Asked, owner: u32) -> u32 {
                $($functions)*::pass_region(a.d, regions, a.caller, owner, a.start, a.length)
            }

            fn give_export(&self, regions: &mut [u32], a: Asked, receiver: u32, right: u32) -> u32 {
                $($functions)*::give_export(a.d, regions, a.caller, receiver, right, a.start, a.length)
            }

            fn change_by(&self, pool: &mut [u32], shape: &[u32], by: By, out: &mut [u32]) -> u32 {
                let By { regions, caller, request, allowance } = by;
                let Request { domain, start, length, right } = request;
                $($functions)*::change_by(pool, shape, regions, caller, domain, start, length, right, allowance, out)
            }
        }
    };
}

/// The proved library.
pub struct Library;
subject!(Library, goleuthan::words);

/// The plain Rust twin.
pub struct Twin;
subject!(Twin, twin);
