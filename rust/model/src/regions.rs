//! The list of regions: who may set rights, and on which words. A stretch of memory is judged by its words.

use crate::change::Request;
use crate::region::Region;
use crate::shape::Shape;
use crate::state::State;
use crate::walk::read;
use crate::Refusal;
use std::collections::BTreeSet;

pub const REGIONS: usize = 64;
pub const REGIONS_WORDS: usize = 5 * REGIONS + 1;

/// A setting of a right: who asks for it, for which domain, and which right.
#[derive(Clone, Copy, Debug, PartialEq, Eq)]
pub struct Setting {
    pub caller: u32,
    pub domain: u32,
    pub right: u32,
}

/// A call on a list: how many domains there are, who calls, and the bytes of the region.
#[derive(Clone, Copy, Debug, PartialEq, Eq)]
pub struct Asked {
    pub d: u32,
    pub caller: u32,
    pub start: u32,
    pub length: u32,
}

/// A region with its owner and its exports: words `lo` up to and without `hi`, which are none where `hi` is not above.
#[derive(Clone, Copy, Debug, PartialEq, Eq)]
pub struct Owned {
    pub owner: u32,
    pub lo: u32,
    pub hi: u32,
    pub given: u32,
    pub rights: u32,
}

impl Owned {
    pub fn holds(&self, word: u32) -> bool {
        self.lo <= word && word < self.hi
    }

    /// The export of a domain, or nothing where none was given. A domain above 15 has none.
    pub fn export(&self, domain: u32) -> Option<u32> {
        (domain < 16 && self.given >> domain & 1 == 1).then(|| self.rights >> (2 * domain) & 3)
    }

    /// Its owner may set all; a domain with an export no more than that, and nothing for itself.
    pub fn lets(&self, setting: Setting) -> bool {
        let Setting { caller, domain, right } = setting;
        let exported = self.export(caller).is_some_and(|most| no_greater(right, most));
        caller == self.owner || (exported && domain != caller)
    }

    fn is_of(&self, region: Region) -> bool {
        self.lo == region.lo && self.hi == region.hi
    }

    /// Two stretches share a word exactly where one of them holds the other's first.
    fn meets(&self, region: Region) -> bool {
        self.holds(region.lo) || (self.holds(self.lo) && region.covers(self.lo))
    }
}

/// None is below all, read below the two others, and these do not compare.
pub fn no_greater(right: u32, than: u32) -> bool {
    match (right, than) {
        (0, _) | (1, 1..=3) => true,
        _ => right == than,
    }
}

/// An array of 64 regions, of which the first `count` are held.
#[derive(Clone, Debug, PartialEq, Eq)]
pub struct Regions {
    pub array: Vec<Owned>,
    pub count: u32,
}

impl Regions {
    /// A list of 321 words: 64 times owner, lo, hi, given, rights, then the count.
    pub fn from_words(words: &[u32]) -> Regions {
        assert_eq!(words.len(), REGIONS_WORDS);
        let array = words[..5 * REGIONS].chunks(5).map(|region| Owned {
            owner: region[0],
            lo: region[1],
            hi: region[2],
            given: region[3],
            rights: region[4],
        });
        Regions { array: array.collect(), count: words[5 * REGIONS] }
    }

    pub fn to_words(&self) -> Vec<u32> {
        let regions = self.array.iter();
        let mut words: Vec<u32> = regions.flat_map(|it| [it.owner, it.lo, it.hi, it.given, it.rights]).collect();
        words.push(self.count);
        words
    }

    /// The regions that the list holds, of a count in range.
    pub fn held(&self) -> &[Owned] {
        &self.array[..self.count as usize]
    }

    /// The region that decides for a word: of those that hold it the earliest.
    pub fn at(&self, word: u32) -> Option<&Owned> {
        self.held().iter().find(|region| region.holds(word))
    }

    /// Whether a word allows a setting. A word in no region belongs to domain 0.
    pub fn may(&self, word: u32, setting: Setting) -> bool {
        match self.at(word) {
            Some(region) => region.lets(setting),
            None => setting.caller == 0,
        }
    }

    /// A word of each stretch of a region within which no held region begins or ends: all words of a stretch are held
    /// by the same regions, so that what holds of one of them holds of all.
    pub fn samples(&self, region: Region) -> BTreeSet<u32> {
        let edges = self.held().iter().flat_map(|held| [held.lo, held.hi]);
        edges.chain([region.lo]).filter(|word| region.covers(*word)).collect()
    }

    /// Whether every word of a region allows a setting.
    pub fn allows(&self, region: Region, setting: Setting) -> bool {
        self.samples(region).into_iter().all(|word| self.may(word, setting))
    }

    /// Whether a held region shares a word with a region.
    pub fn meets(&self, region: Region) -> bool {
        self.held().iter().any(|held| held.meets(region))
    }

    /// The place of the held region of exactly these words: of two the earlier.
    pub fn place(&self, region: Region) -> Option<usize> {
        self.held().iter().position(|held| held.is_of(region))
    }

    /// Refusals 1, 18, 2, 4, 5, 19, 20.
    pub fn make(&mut self, asked: Asked, owner: u32) -> Result<(), Refusal> {
        let region = self.region(asked, owner, 0)?;
        if asked.caller != 0 || self.meets(region) {
            return Err(19);
        }
        if self.count == 64 {
            return Err(20);
        }
        self.array[self.count as usize] = Owned { owner, lo: region.lo, hi: region.hi, given: 0, rights: 0 };
        self.count += 1;
        Ok(())
    }

    /// Refusals 1, 18, 2, 4, 5, 19.
    pub fn pass(&mut self, asked: Asked, owner: u32) -> Result<(), Refusal> {
        let region = self.region(asked, owner, 0)?;
        let held = self.of_caller(region, asked.caller)?;
        *held = Owned { owner, given: 0, rights: 0, ..*held };
        Ok(())
    }

    /// Refusals 1, 18, 2, 3, 4, 5, 19.
    pub fn give(&mut self, asked: Asked, receiver: u32, right: u32) -> Result<(), Refusal> {
        let region = self.region(asked, receiver, right)?;
        let held = self.of_caller(region, asked.caller)?;
        if receiver == asked.caller {
            return Err(19);
        }
        held.given |= 1 << receiver;
        held.rights = held.rights & !(3 << (2 * receiver)) | right << (2 * receiver);
        Ok(())
    }

    /// Refusals 1, 18, 2 (the caller or another domain), 3, 4, 5; else the rounded region.
    fn region(&self, asked: Asked, other: u32, right: u32) -> Result<Region, Refusal> {
        if !(1..=4).contains(&asked.d) {
            return Err(1);
        }
        self.counted()?;
        if asked.caller >= asked.d || other >= asked.d {
            return Err(2);
        }
        if right > 3 {
            return Err(3);
        }
        Region::rounded(asked.start, asked.length)
    }

    /// The held region of exactly these words; 19 where there is none, or it is not the caller's.
    fn of_caller(&mut self, region: Region, caller: u32) -> Result<&mut Owned, Refusal> {
        let place = self.place(region).ok_or(19u32)?;
        Some(&mut self.array[place]).filter(|held| held.owner == caller).ok_or(19)
    }

    fn counted(&self) -> Result<(), Refusal> {
        if self.count > 64 {
            return Err(18);
        }
        Ok(())
    }
}

/// A change of any pool by a caller: refusals 1, 18, 2, 3, 4, 5, 19, 6, 7, 8, else the states before and after.
pub fn change_by(
    pool: &[u32],
    shape: Shape,
    regions: &Regions,
    caller: u32,
    request: Request,
) -> Result<(State, State), Refusal> {
    shape.fits(pool)?;
    regions.counted()?;
    if caller >= shape.domains {
        return Err(2);
    }
    let region = request.region(shape.domains)?;
    if !regions.allows(region, Setting { caller, domain: request.domain, right: request.right }) {
        return Err(19);
    }
    let before = read(pool, shape).ok_or(6u32)?;
    let after = before.changed(request)?;
    Ok((before, after))
}
