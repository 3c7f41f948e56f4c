//! The table: a borrowed pool with its shape, and the calls on it.

use crate::{runs, words, CallStack, Gates, LookasideBuffer, Refusal, Regions, Run, Stretches};
use std::ops::{RangeBounds, RangeInclusive};

/// The shape of a pool: how many domains, middle places and leaf places it has. It is the words that the library knows.
/// The pool does not hold them: give each call those that it was made fresh with.
#[derive(Clone, Copy, Debug, PartialEq, Eq, Hash)]
pub struct Shape {
    words: [u32; 5],
}

/// The paper's form: eight rights an entry.
const EIGHTS: u32 = 0;

impl Shape {
    /// A shape of the paper's form: 1 to 4 domains, 0 to 8 middle places of 1,024 words, 0 to 64 leaf places of 64
    /// words.
    pub const fn new(domains: u32, middles: u32, leaves: u32) -> Shape {
        Shape { words: [EIGHTS, domains, middles, leaves, 0] }
    }

    /// A shape of given words: form, domains, middle places, leaf places, V. Any form but 0, and any V but 0, is
    /// refused 1 by every call.
    pub const fn from_words(words: [u32; 5]) -> Shape {
        Shape { words }
    }

    /// The words that the library knows it by.
    pub fn words(&self) -> &[u32; 5] {
        &self.words
    }

    /// How many domains there are.
    pub fn domains(self) -> u32 {
        self.words[1]
    }

    /// How many middle places there are.
    pub fn middles(self) -> u32 {
        self.words[2]
    }

    /// How many leaf places there are.
    pub fn leaves(self) -> u32 {
        self.words[3]
    }

    /// The length of a pool of this shape, in words.
    pub fn pool_words(self) -> usize {
        1024 * self.domains() as usize + 1024 * self.middles() as usize + 64 * self.leaves() as usize
    }
}

/// What a domain may do with a word.
#[derive(Clone, Copy, Debug, PartialEq, Eq, Hash)]
#[repr(u32)]
pub enum Right {
    /// Nothing.
    None = 0,
    /// Load.
    Read = 1,
    /// Load and store.
    ReadWrite = 2,
    /// Fetch and load.
    ExecuteRead = 3,
}

impl Right {
    pub(crate) fn of(number: u32) -> Right {
        match number & 3 {
            0 => Right::None,
            1 => Right::Read,
            2 => Right::ReadWrite,
            _ => Right::ExecuteRead,
        }
    }
}

/// A change of rights. The words that hold one of its bytes get the right: the start is rounded down to a multiple of
/// 4; its low two bits are added to the length, which is then rounded up.
#[derive(Clone, Copy, Debug, PartialEq, Eq, Hash)]
pub struct Request {
    /// The domain that gets the right.
    pub domain: u32,
    /// The first byte.
    pub start: u32,
    /// The number of bytes.
    pub length: u32,
    /// The right that it gets.
    pub right: Right,
}

/// How a change or a tidying ended.
#[derive(Clone, Copy, Debug, PartialEq, Eq, Hash)]
#[must_use]
pub enum Answer {
    /// All is done.
    Done {
        /// How many words were written.
        stores: u32,
    },
    /// The allowance ran out: exactly as many words were written, and the pool is sound.
    Cut,
}

/// What a lookup finds, and how far it reaches: every byte from the first to the last has the right, all by the entry
/// that decides. They lie in the entry's block (4 MB for a root entry, 4 KB for one of a middle table, 64 bytes for one
/// of a leaf), and a byte beside them in the block has another right. In the next block the right may go on.
#[derive(Clone, Copy, Debug, PartialEq, Eq, Hash)]
pub struct Found {
    /// The right.
    pub right: Right,
    /// The entry that decides.
    pub entry: u32,
    /// The loads made: 1 to 3 by the level that decides.
    pub loads: u32,
    /// The first byte of the longest stretch of the right around the address, inside the block.
    pub first_byte: u32,
    /// The last byte of that stretch, which is `u32::MAX` at the end of memory.
    pub last_byte: u32,
}

impl Found {
    /// The bytes of the stretch.
    pub fn range(&self) -> RangeInclusive<u32> {
        self.first_byte..=self.last_byte
    }
}

/// An access to be checked; the size is 1, 2 or 4 bytes.
#[derive(Clone, Copy, Debug, PartialEq, Eq, Hash)]
pub enum Access {
    /// A load of so many bytes; it passes on every right but none.
    Load(u32),
    /// A store of so many bytes; it passes on read and write.
    Store(u32),
    /// A fetch of 4 bytes; it passes on execute and read.
    Fetch,
}

impl Access {
    fn numbers(self) -> (u32, u32) {
        match self {
            Access::Load(size) => (0, size),
            Access::Store(size) => (1, size),
            Access::Fetch => (2, 4),
        }
    }
}

/// The verdict of a check or of a step.
#[derive(Clone, Copy, Debug, PartialEq, Eq, Hash)]
#[must_use]
pub enum Verdict {
    /// The right allows it.
    Pass,
    /// The right does not.
    Deny,
}

impl Verdict {
    fn of(number: u32) -> Verdict {
        if number == 1 {
            Verdict::Pass
        } else {
            Verdict::Deny
        }
    }
}

/// A pool of words, borrowed, and its shape.
#[derive(Debug)]
pub struct Table<'a> {
    pool: &'a mut [u32],
    shape: Shape,
}

const CUT: u32 = 100;

fn answer(number: u32, stores: u32) -> Result<Answer, Refusal> {
    if number == CUT {
        return Ok(Answer::Cut);
    }
    Refusal::none_or(number)?;
    Ok(Answer::Done { stores })
}

impl<'a> Table<'a> {
    /// Makes a pool fresh; refusal 1 where it does not have its shape's length. Every lookaside buffer that served the
    /// pool is stale then: empty it.
    pub fn fresh(pool: &'a mut [u32], shape: Shape) -> Result<Table<'a>, Refusal> {
        Refusal::none_or(words::fresh(pool, shape.words()))?;
        Ok(Table { pool, shape })
    }

    /// Takes up a pool that was made fresh before, as after a reset. Empty the lookaside buffers and tidy it then.
    pub fn resume(pool: &'a mut [u32], shape: Shape) -> Table<'a> {
        Table { pool, shape }
    }

    /// The pool's words.
    pub fn words(&self) -> &[u32] {
        self.pool
    }

    /// The shape that every call is given.
    pub fn shape(&self) -> Shape {
        self.shape
    }

    /// Gives a domain a right on a region, in at most `allowance` single-word stores. Flush the region afterwards,
    /// done or cut, for the domain in every buffer of this pool. It is the supervisor's own change and always allowed;
    /// [`change_by`](Table::change_by) asks who may.
    pub fn change(&mut self, request: Request, allowance: u32) -> Result<Answer, Refusal> {
        let Request { domain, start, length, right } = request;
        let mut out = [0];
        let number =
            words::change(self.pool, self.shape.words(), domain, start, length, right as u32, allowance, &mut out);
        answer(number, out[0])
    }

    /// The same change, asked for by a domain: refused 19 unless [the regions](Regions#who-may-set-rights) let the
    /// caller set this right for this domain on every word of it. It too asks for a flush afterwards, done or cut.
    pub fn change_by(
        &mut self,
        regions: &Regions,
        caller: u32,
        request: Request,
        allowance: u32,
    ) -> Result<Answer, Refusal> {
        let Request { domain, start, length, right } = request;
        let (pool, shape, regions) = (&mut *self.pool, self.shape.words(), &regions.words);
        let right = right as u32;
        let mut out = [0];
        let number = words::change_by(pool, shape, regions, caller, domain, start, length, right, allowance, &mut out);
        answer(number, out[0])
    }

    /// Gives up tables that the rights no longer need. No word's right changes, so nothing needs a flush.
    pub fn tidy(&mut self, allowance: u32) -> Result<Answer, Refusal> {
        let mut out = [0];
        let number = words::tidy(self.pool, self.shape.words(), allowance, &mut out);
        answer(number, out[0])
    }

    /// The right that a domain has on the word at an address, and the bytes around it that have the same.
    pub fn lookup(&self, domain: u32, address: u32) -> Result<Found, Refusal> {
        let mut out = [0; 5];
        Refusal::none_or(words::lookup(self.pool, self.shape.words(), domain, address, &mut out))?;
        let [right, entry, loads, first_byte, last_byte] = out;
        Ok(Found { right: Right::of(right), entry, loads, first_byte, last_byte })
    }

    /// The rights of a domain in a range of bytes, stretch by stretch in order of address, and with exactly one lookup
    /// for each; nothing is allocated.
    ///
    /// The stretches lie side by side and are cut to the range, so that they cover it and no byte beyond. Each is what
    /// one lookup reaches: two neighbours in one block differ in their right, and where a block begins there is a new
    /// stretch, though its right may be that of the one before. A refusal, as [`lookup`](Table::lookup) gives it, is
    /// the last item; an empty range makes no lookup and has no items.
    ///
    /// ```
    /// use goleuthan::{Request, Right, Shape, Table};
    ///
    /// let shape = Shape::new(1, 1, 1);
    /// let mut pool = vec![0; shape.pool_words()];
    /// let mut table = Table::fresh(&mut pool, shape)?;
    /// let _ = table.change(Request { domain: 0, start: 0x1010, length: 72, right: Right::Read }, u32::MAX)?;
    /// let mut walk = table.stretches(0, 0x1000..0x1080).map(|stretch| {
    ///     stretch.map(|stretch| (stretch.first_byte, stretch.last_byte, stretch.right))
    /// });
    /// // 32 words in four lookups; the block of a leaf's entry ends at 0x103F
    /// assert_eq!(walk.next(), Some(Ok((0x1000, 0x100F, Right::None))));
    /// assert_eq!(walk.next(), Some(Ok((0x1010, 0x103F, Right::Read))));
    /// assert_eq!(walk.next(), Some(Ok((0x1040, 0x1057, Right::Read))));
    /// assert_eq!(walk.next(), Some(Ok((0x1058, 0x107F, Right::None))));
    /// assert_eq!(walk.next(), None);
    /// // to the end of memory, which is the last block's
    /// assert_eq!(table.stretches(0, 0xFFC0_0000..).count(), 1);
    /// # Ok::<(), goleuthan::Refusal>(())
    /// ```
    pub fn stretches(&self, domain: u32, bytes: impl RangeBounds<u32>) -> Stretches<'_> {
        Stretches::new(self, domain, bytes)
    }

    /// Checks an access through a lookaside buffer: the verdict, and the loads made (0 where a slot answers). It is the
    /// pool's verdict as long as [the buffer's user](LookasideBuffer#what-its-user-owes) keeps to the rules.
    pub fn check(
        &self,
        buffer: &mut LookasideBuffer,
        domain: u32,
        access: Access,
        address: u32,
    ) -> Result<(Verdict, u32), Refusal> {
        let (kind, size) = access.numbers();
        let buffer = &mut buffer.words;
        let mut out = [0; 2];
        let number = words::check(self.pool, self.shape.words(), buffer, domain, kind, size, address, &mut out);
        Refusal::none_or(number)?;
        Ok((Verdict::of(out[0]), out[1]))
    }

    /// One fetch step at an address, through the gates.
    pub fn step(&self, gates: &Gates, stack: &mut CallStack, address: u32, target: u32) -> Result<Verdict, Refusal> {
        let (gates, stack) = (&gates.words, &mut stack.words);
        let mut out = [0];
        let number = words::step(self.pool, self.shape.words(), gates, stack, address, target, &mut out);
        Refusal::none_or(number)?;
        Ok(Verdict::of(out[0]))
    }

    /// All longest runs of one right other than none, by domain and then address.
    pub fn runs(&self) -> Result<Vec<Run>, Refusal> {
        runs::gather(|from, lent| {
            let mut out = [0];
            Refusal::none_or(words::list(self.pool, self.shape.words(), from, lent, &mut out))?;
            Ok(out[0])
        })
    }
}
