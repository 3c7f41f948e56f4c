//! Changes and tidyings: what is refused, and which pool is the finished one.

use crate::region::Region;
use crate::shape::Shape;
use crate::state::State;
use crate::walk::read;
use crate::Refusal;

/// A change as it is asked for.
#[derive(Clone, Copy, Debug, PartialEq, Eq)]
pub struct Request {
    pub domain: u32,
    pub start: u32,
    pub length: u32,
    pub right: u32,
}

impl Request {
    /// Refusals 2, 3, 4, 5; else the rounded region.
    pub fn region(self, domains: u32) -> Result<Region, Refusal> {
        if self.domain >= domains {
            return Err(2);
        }
        if self.right > 3 {
            return Err(3);
        }
        Region::rounded(self.start, self.length)
    }
}

impl State {
    /// The state after a change that is allowed all its stores: refusals 2 to 5, 7 and 8.
    pub fn changed(&self, request: Request) -> Result<State, Refusal> {
        let region = request.region(self.shape.domains)?;
        if !self.is_settled() {
            return Err(7);
        }
        let mut rights = self.rights.clone();
        let painted = &mut rights[request.domain as usize];
        *painted = painted.painted(region.lo, region.hi, request.right);
        self.finished(rights).ok_or(8)
    }

    /// The state after a tidying that is allowed all its stores. A sound pool has room for what its rights want.
    pub fn tidied(&self) -> State {
        self.finished(self.rights.clone()).expect("a sound pool holds the tables that its rights want")
    }
}

/// A change of any pool: refusals 1 to 8, else the states before and after.
pub fn change(pool: &[u32], shape: Shape, request: Request) -> Result<(State, State), Refusal> {
    shape.fits(pool)?;
    request.region(shape.domains)?;
    let before = read(pool, shape).ok_or(6u32)?;
    let after = before.changed(request)?;
    Ok((before, after))
}

/// A tidying of any pool: refusals 1 and 6, else the states before and after.
pub fn tidy(pool: &[u32], shape: Shape) -> Result<(State, State), Refusal> {
    shape.fits(pool)?;
    let before = read(pool, shape).ok_or(6u32)?;
    let after = before.tidied();
    Ok((before, after))
}

/// The stores of a finished call: how many words differ.
pub fn differing(before: &[u32], after: &[u32]) -> u32 {
    before.iter().zip(after).filter(|(old, new)| old != new).count() as u32
}
