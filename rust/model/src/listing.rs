//! The listing: each longest run of one right other than none, by domain and then address.

use crate::rights::Rights;
use crate::shape::Shape;
use crate::walk::read;
use crate::Refusal;

/// A run of bytes with one right.
#[derive(Clone, Copy, Debug, PartialEq, Eq)]
pub struct Run {
    pub domain: u32,
    pub first: u32,
    pub last: u32,
    pub right: u32,
}

pub fn runs(rights: &[Rights]) -> Vec<Run> {
    let mut runs = Vec::new();
    for (domain, rights) in rights.iter().enumerate() {
        for piece in rights.pieces().filter(|piece| piece.right != 0) {
            let last = (4 * u64::from(piece.end) - 1) as u32;
            runs.push(Run { domain: domain as u32, first: 4 * piece.start, last, right: piece.right });
        }
    }
    runs
}

/// The listing of any pool: refusals 1 and 6.
pub fn list(pool: &[u32], shape: Shape) -> Result<Vec<Run>, Refusal> {
    shape.fits(pool)?;
    let state = read(pool, shape).ok_or(6u32)?;
    Ok(runs(&state.rights))
}
