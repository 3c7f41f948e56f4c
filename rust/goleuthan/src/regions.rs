//! Lists of owned regions. A list is the words that the library knows.

use crate::words;
use crate::{Refusal, Right};

/// Where the regions end, and their count stands.
const COUNT: usize = 320;
/// The domains that can have an export: 0 to 15.
const EXPORTERS: u32 = 16;

/// The exports of a region: for each domain a right that it may set for others, or none given.
#[derive(Clone, Copy, Debug, PartialEq, Eq, Hash)]
pub struct Exports {
    given: u32,
    rights: u32,
}

impl Exports {
    /// The two words of a region's exports, without the bits that say nothing.
    fn of_words(given: u32, rights: u32) -> Exports {
        let given = given & 0xFFFF;
        let said = (0..EXPORTERS).filter(|domain| given >> domain & 1 == 1).map(|domain| 3 << (2 * domain));
        Exports { given, rights: rights & said.fold(0, |all: u32, both| all | both) }
    }

    /// The export of a domain. None where none was given, which is less than an export of [`Right::None`].
    pub fn of(self, domain: u32) -> Option<Right> {
        let given = domain < EXPORTERS && self.given >> domain & 1 == 1;
        given.then(|| Right::of(self.rights >> (2 * domain)))
    }

    /// The exports given, by domain.
    pub fn given(self) -> impl DoubleEndedIterator<Item = (u32, Right)> {
        (0..EXPORTERS).filter_map(move |domain| Some((domain, self.of(domain)?)))
    }
}

/// A region of a list: the memory words from `first_word` up to and without `end_word` (a word is four bytes, the word
/// of a byte is its address / 4). Where the end is not above the first it holds no word.
#[derive(Clone, Copy, Debug, PartialEq, Eq, Hash)]
pub struct OwnedRegion {
    /// The domain that may set all rights here.
    pub owner: u32,
    /// Its first memory word.
    pub first_word: u32,
    /// The memory word after its last.
    pub end_word: u32,
    /// What other domains may set here.
    pub exports: Exports,
}

impl OwnedRegion {
    /// A region's five words.
    fn of(words: &[u32]) -> OwnedRegion {
        let exports = Exports::of_words(words[3], words[4]);
        OwnedRegion { owner: words[0], first_word: words[1], end_word: words[2], exports }
    }

    /// Whether it holds the word at an address.
    pub fn holds(&self, address: u32) -> bool {
        (self.first_word..self.end_word).contains(&(address / 4))
    }
}

/// A list of up to 64 regions, which says who may set rights where, for [`Table::change_by`](crate::Table::change_by).
///
/// # Who may set rights
///
/// The earliest region that holds a word decides; a word in none belongs to domain 0. The owner may set any right for
/// any domain. A domain with an export may set, for any domain but itself, a right no greater than it: none is below
/// all, read is below the other two, and these do not compare. A change is allowed where every word of it allows it.
///
/// The number of domains is that of the table, 1 to 4. Regions are rounded and refused as a change is.
///
/// ```
/// use goleuthan::{Answer, Regions, Request, Right, Shape, Table};
///
/// let shape = Shape::new(4, 2, 2);
/// let mut pool = vec![0; shape.pool_words()];
/// let mut table = Table::fresh(&mut pool, shape)?;
/// let mut regions = Regions::none();
///
/// // the supervisor, domain 0, makes a region for domain 1, which then sets rights there and nowhere else
/// regions.make(4, 0, 1, 0x1000, 64)?;
/// let whole = Request { domain: 2, start: 0x1000, length: 64, right: Right::ReadWrite };
/// assert_eq!(table.change_by(&regions, 1, whole, u32::MAX)?, Answer::Done { stores: 1026 });
/// let beyond = table.change_by(&regions, 1, Request { length: 65, ..whole }, u32::MAX);
/// assert_eq!(beyond.unwrap_err().number(), 19);
///
/// // with an export of read, domain 2 may set read or none for others
/// regions.give(4, 1, 2, Right::Read, 0x1000, 64)?;
/// let read = Request { domain: 3, right: Right::Read, ..whole };
/// let _ = table.change_by(&regions, 2, read, u32::MAX)?;
/// let write = table.change_by(&regions, 2, Request { right: Right::ReadWrite, ..read }, u32::MAX);
/// assert_eq!(write.unwrap_err().number(), 19);
/// let own = table.change_by(&regions, 2, Request { domain: 2, ..read }, u32::MAX);
/// assert_eq!(own.unwrap_err().number(), 19);
///
/// // passed on, the region is another's, and its exports have ended
/// regions.pass(4, 1, 3, 0x1000, 64)?;
/// let region = regions.at(0x1000).expect("a region holds the word");
/// assert_eq!((region.owner, region.exports.of(2)), (3, None));
/// # Ok::<(), goleuthan::Refusal>(())
/// ```
#[derive(Clone, Debug, PartialEq, Eq)]
pub struct Regions {
    pub(crate) words: [u32; 321],
}

impl Default for Regions {
    fn default() -> Self {
        Regions::none()
    }
}

impl Regions {
    /// A list without regions: all memory belongs to domain 0.
    pub const fn none() -> Regions {
        Regions { words: [0; 321] }
    }

    /// A list of given words: 64 times owner, first word, word after the last, exports given, their rights; then the
    /// count.
    pub const fn from_words(words: [u32; 321]) -> Regions {
        Regions { words }
    }

    /// The words that the library knows it by.
    pub fn words(&self) -> &[u32; 321] {
        &self.words
    }

    /// How many regions it holds. Above 64 every call with this list is refused 18.
    pub fn count(&self) -> u32 {
        self.words[COUNT]
    }

    /// The regions that it holds, in their order.
    pub fn held(&self) -> impl DoubleEndedIterator<Item = OwnedRegion> + ExactSizeIterator + '_ {
        self.words[..COUNT].chunks_exact(5).take(self.count() as usize).map(OwnedRegion::of)
    }

    /// The region that decides for the word at an address: of those that hold it, the earliest.
    pub fn at(&self, address: u32) -> Option<OwnedRegion> {
        self.held().find(|region| region.holds(address))
    }

    /// Makes a region for an owner, in a table of `domains` domains. Only domain 0 may, and where no region is yet.
    pub fn make(&mut self, domains: u32, caller: u32, owner: u32, start: u32, length: u32) -> Result<(), Refusal> {
        Refusal::none_or(words::make_region(domains, &mut self.words, caller, owner, start, length))
    }

    /// Passes the caller's region of exactly these words to another owner. Its exports end.
    pub fn pass(&mut self, domains: u32, caller: u32, owner: u32, start: u32, length: u32) -> Result<(), Refusal> {
        Refusal::none_or(words::pass_region(domains, &mut self.words, caller, owner, start, length))
    }

    /// Gives another domain an export of the caller's region of exactly these words, in place of an earlier one.
    pub fn give(
        &mut self,
        domains: u32,
        caller: u32,
        receiver: u32,
        right: Right,
        start: u32,
        length: u32,
    ) -> Result<(), Refusal> {
        let right = right as u32;
        Refusal::none_or(words::give_export(domains, &mut self.words, caller, receiver, right, start, length))
    }
}
