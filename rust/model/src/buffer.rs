//! The lookaside buffer: checks through it, and the flushes.

use crate::access::kind_of;
use crate::region::Region;
use crate::shape::Shape;
use crate::walk::{is_eight_rights, lookup};
use crate::Refusal;

pub const SLOTS: usize = 64;
pub const BUFFER_WORDS: usize = 4 * SLOTS + 1;

#[derive(Clone, Copy, Debug, PartialEq, Eq)]
pub struct Slot {
    pub domain: u32,
    pub level: u32,
    pub block: u32,
    pub entry: u32,
}

const EMPTIED: Slot = Slot { domain: 0, level: 0, block: 0, entry: 0 };

#[derive(Clone, Debug, PartialEq, Eq)]
pub struct Buffer {
    pub slots: Vec<Slot>,
    pub next: u32,
}

/// An access to be checked.
#[derive(Clone, Copy, Debug, PartialEq, Eq)]
pub struct Access {
    pub domain: u32,
    pub kind: u32,
    pub size: u32,
    pub address: u32,
}

#[derive(Clone, Copy, Debug, PartialEq, Eq)]
pub struct Verdict {
    pub pass: bool,
    pub loads: u32,
}

/// The bytes under one entry of a level, or nothing where there is no such level.
fn block_bytes(level: u32) -> Option<u64> {
    match level {
        1 => Some(4 << 20),
        2 => Some(4 << 10),
        3 => Some(64),
        _ => None,
    }
}

impl Slot {
    /// The bytes of its block, first and past the last; nothing where the slot counts as empty.
    fn block(self) -> Option<(u64, u64)> {
        let bytes = block_bytes(self.level)?;
        let first = u64::from(self.block);
        (first % bytes == 0).then_some((first, first + bytes))
    }

    /// The right that this slot answers with, if it matches.
    fn answer(self, domain: u32, address: u32) -> Option<u32> {
        let (first, end) = self.block()?;
        let at = u64::from(address);
        let good = self.level == 3 || is_eight_rights(self.entry);
        if self.domain != domain || at < first || at >= end || !good {
            return None;
        }
        let parts = if self.level == 3 { 16 } else { 8 };
        let part = (at - first) / ((end - first) / parts);
        Some(self.entry >> (2 * part) & 3)
    }
}

impl Buffer {
    /// A buffer of 257 words: 64 times domain, level, block, entry, then the next-pointer.
    pub fn from_words(words: &[u32]) -> Buffer {
        assert_eq!(words.len(), BUFFER_WORDS);
        let slots = words[..4 * SLOTS].chunks(4).map(|slot| Slot {
            domain: slot[0],
            level: slot[1],
            block: slot[2],
            entry: slot[3],
        });
        Buffer { slots: slots.collect(), next: words[4 * SLOTS] }
    }

    pub fn to_words(&self) -> Vec<u32> {
        let slots = self.slots.iter();
        let mut words: Vec<u32> = slots.flat_map(|slot| [slot.domain, slot.level, slot.block, slot.entry]).collect();
        words.push(self.next);
        words
    }

    fn pointed(&self) -> Result<(), Refusal> {
        if self.next > 63 {
            return Err(18);
        }
        Ok(())
    }

    /// Refusals 1, 18, 2, 9, 10, then 6 on a miss. A refusal leaves the buffer as it is.
    pub fn check(&mut self, pool: &[u32], shape: Shape, access: Access) -> Result<Verdict, Refusal> {
        shape.fits(pool)?;
        self.pointed()?;
        if access.domain >= shape.domains {
            return Err(2);
        }
        let kind = kind_of(access.kind, access.size)?;
        if !access.address.is_multiple_of(access.size) {
            return Err(10);
        }
        let hit = self.slots.iter().find_map(|slot| slot.answer(access.domain, access.address));
        if let Some(right) = hit {
            return Ok(Verdict { pass: kind.passes(right), loads: 0 });
        }
        let found = lookup(pool, shape, access.domain, access.address)?;
        self.fill(access, found.loads, found.entry);
        Ok(Verdict { pass: kind.passes(found.right), loads: found.loads })
    }

    fn fill(&mut self, access: Access, level: u32, entry: u32) {
        let bytes = block_bytes(level).expect("a lookup makes 1 to 3 loads") as u32;
        let block = access.address / bytes * bytes;
        self.slots[self.next as usize] = Slot { domain: access.domain, level, block, entry };
        self.next = (self.next + 1) % 64;
    }

    pub fn flush_all(&mut self) -> Result<(), Refusal> {
        self.pointed()?;
        self.slots.fill(EMPTIED);
        Ok(())
    }

    pub fn flush_domain(&mut self, domain: u32) -> Result<(), Refusal> {
        self.pointed()?;
        self.empty(|slot| slot.domain == domain && slot.block().is_some());
        Ok(())
    }

    /// Refusals 18, 4, 5; the domain is any number.
    pub fn flush_region(&mut self, domain: u32, start: u32, length: u32) -> Result<(), Refusal> {
        self.pointed()?;
        let region = Region::rounded(start, length)?;
        let (first, end) = (4 * u64::from(region.lo), 4 * u64::from(region.hi));
        let meets = |block: (u64, u64)| block.0 < end && first < block.1;
        self.empty(|slot| slot.domain == domain && slot.block().is_some_and(meets));
        Ok(())
    }

    fn empty(&mut self, which: impl Fn(&Slot) -> bool) {
        for slot in self.slots.iter_mut().filter(|slot| which(slot)) {
            *slot = EMPTIED;
        }
    }
}
