//! Loads, stores and fetches: which there are, and which right lets them pass.

use crate::Refusal;

#[derive(Clone, Copy, Debug, PartialEq, Eq)]
pub enum Kind {
    Load,
    Store,
    Fetch,
}

impl Kind {
    pub fn passes(self, right: u32) -> bool {
        match self {
            Kind::Load => right == 1 || right == 2 || right == 3,
            Kind::Store => right == 2,
            Kind::Fetch => right == 3,
        }
    }
}

/// Refusal 9: loads and stores are of 1, 2 or 4 bytes, fetches of 4; kinds are 0 load, 1 store, 2 fetch.
pub fn kind_of(kind: u32, size: u32) -> Result<Kind, Refusal> {
    match (kind, size) {
        (0, 1 | 2 | 4) => Ok(Kind::Load),
        (1, 1 | 2 | 4) => Ok(Kind::Store),
        (2, 4) => Ok(Kind::Fetch),
        _ => Err(9),
    }
}
