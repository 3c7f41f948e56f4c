//! The lookaside buffer: 64 slots, each empty or an entry that decided a check. It is the words that the library knows.

use crate::words;
use crate::Refusal;

/// Where the slots end, and the next-pointer stands.
const NEXT: usize = 256;

/// A level of the tables.
#[derive(Clone, Copy, Debug, PartialEq, Eq, Hash)]
#[repr(u32)]
pub enum Level {
    /// An entry of a root.
    Root = 1,
    /// An entry of a middle table.
    Middle = 2,
    /// An entry of a leaf.
    Leaf = 3,
}

impl Level {
    fn of(number: u32) -> Option<Level> {
        match number {
            1 => Some(Level::Root),
            2 => Some(Level::Middle),
            3 => Some(Level::Leaf),
            _ => None,
        }
    }

    /// The bytes of the block that an entry of this level speaks of: 4 MB, 4 KB or 64.
    pub const fn block_bytes(self) -> u32 {
        match self {
            Level::Root => 1 << 22,
            Level::Middle => 1 << 12,
            Level::Leaf => 1 << 6,
        }
    }
}

/// A slot that holds an entry.
#[derive(Clone, Copy, Debug, PartialEq, Eq, Hash)]
pub struct Slot {
    /// The domain that the entry was found for.
    pub domain: u32,
    /// The level of the table that it was found in.
    pub level: Level,
    /// The first byte of its block.
    pub block: u32,
    /// The entry. At a root's or a middle table's level it answers only where bit 31 is set and bits 30 to 16 are zero.
    pub entry: u32,
}

impl Slot {
    /// A slot's four words; none where they count as empty: the level is no level, or the block is not aligned to it.
    fn of(words: &[u32]) -> Option<Slot> {
        let [domain, level, block, entry] = words.try_into().ok()?;
        let level = Level::of(level)?;
        (block % level.block_bytes() == 0).then_some(Slot { domain, level, block, entry })
    }
}

/// A lookaside buffer of 64 slots, for [`Table::check`](crate::Table::check).
///
/// # What its user owes
///
/// A slot answers without a look at the pool. So that a check through the buffer gives the verdict that the pool gives:
///
/// - A buffer serves one pool of one shape. Empty it before it serves another.
/// - After each change, done or cut, flush the change's region for its domain, in every buffer of the pool, before the
///   next check. A refused change and a tidying need no flush.
/// - Empty it after the pool was made fresh, after a reset, and after anything but the library wrote the pool.
///
/// Else a slot may be stale: it goes on to pass or deny by a right that the pool no longer gives.
///
/// ```
/// use goleuthan::{Access, LookasideBuffer, Request, Right, Shape, Table, Verdict};
///
/// let shape = Shape::new(1, 0, 0);
/// let mut pool = vec![0; shape.pool_words()];
/// let mut table = Table::fresh(&mut pool, shape)?;
/// let mut buffer = LookasideBuffer::empty();
/// let grant = Request { domain: 0, start: 0, length: 1 << 19, right: Right::Read };
/// let _ = table.change(grant, u32::MAX)?;
/// assert_eq!(table.check(&mut buffer, 0, Access::Load(4), 64)?, (Verdict::Pass, 1));
///
/// // the right is taken back: until the flush the slot is stale, and still passes
/// let _ = table.change(Request { right: Right::None, ..grant }, u32::MAX)?;
/// assert_eq!(table.check(&mut buffer, 0, Access::Load(4), 64)?, (Verdict::Pass, 0));
/// buffer.flush_region(grant.domain, grant.start, grant.length)?;
/// assert_eq!(table.check(&mut buffer, 0, Access::Load(4), 64)?, (Verdict::Deny, 1));
///
/// // a pool that is made fresh leaves no slot that may be trusted
/// let table = Table::fresh(&mut pool, shape)?;
/// buffer = LookasideBuffer::empty();
/// assert_eq!(table.check(&mut buffer, 0, Access::Load(4), 64)?, (Verdict::Deny, 1));
/// # Ok::<(), goleuthan::Refusal>(())
/// ```
#[derive(Clone, Debug, PartialEq, Eq)]
pub struct LookasideBuffer {
    pub(crate) words: [u32; 257],
}

impl Default for LookasideBuffer {
    fn default() -> Self {
        LookasideBuffer::empty()
    }
}

impl LookasideBuffer {
    /// An empty buffer, as it is after a reset.
    pub const fn empty() -> LookasideBuffer {
        LookasideBuffer { words: [0; 257] }
    }

    /// A buffer of given words: 64 times domain, level, block, entry, then the next-pointer.
    pub const fn from_words(words: [u32; 257]) -> LookasideBuffer {
        LookasideBuffer { words }
    }

    /// The words that the library knows it by.
    pub fn words(&self) -> &[u32; 257] {
        &self.words
    }

    /// The 64 slots in their order; none for a slot that counts as empty. The lowest that matches answers a check.
    pub fn slots(&self) -> impl DoubleEndedIterator<Item = Option<Slot>> + ExactSizeIterator + '_ {
        self.words[..NEXT].chunks_exact(4).map(Slot::of)
    }

    /// The slot that the next miss fills. Above 63 every call with this buffer is refused 18.
    pub fn next_slot(&self) -> u32 {
        self.words[NEXT]
    }

    /// Empties every slot.
    pub fn flush_all(&mut self) -> Result<(), Refusal> {
        Refusal::none_or(words::flush_all(&mut self.words))
    }

    /// Empties every slot of a domain.
    pub fn flush_domain(&mut self, domain: u32) -> Result<(), Refusal> {
        Refusal::none_or(words::flush_domain(&mut self.words, domain))
    }

    /// Empties every slot of a domain whose block meets a region, which is rounded and refused as a change's is. All
    /// other slots stay as they are, those that count as empty too, and so does the next-pointer.
    pub fn flush_region(&mut self, domain: u32, start: u32, length: u32) -> Result<(), Refusal> {
        Refusal::none_or(words::flush_region(&mut self.words, domain, start, length))
    }
}
