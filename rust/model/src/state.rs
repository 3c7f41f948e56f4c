//! A sound pool as the model sees it: the rights of every domain, whose table stands at which place, and the words.
//! The words are a function of the rest, but for places that nobody owns.

use crate::rights::Rights;
use crate::shape::{Shape, LEAF, TABLE};
use std::collections::BTreeSet;

/// Memory words under one root, middle and leaf entry.
pub const BLOCK: u32 = 1 << 20;
pub const PAGE: u32 = 1 << 10;
pub const LINE: u32 = 1 << 4;

/// Whose table: a domain, and the number of its 4 MB block (a middle table) or of its 4 KB page (a leaf). The order
/// is that of domain and address.
#[derive(Clone, Copy, Debug, PartialEq, Eq, PartialOrd, Ord)]
pub struct Owner {
    pub domain: usize,
    pub number: u32,
}

/// The owner of each place of one kind.
pub type Owners = Vec<Option<Owner>>;

#[derive(Clone, Debug, PartialEq, Eq)]
pub struct State {
    pub shape: Shape,
    pub rights: Vec<Rights>,
    pub middles: Owners,
    pub leaves: Owners,
    pub words: Vec<u32>,
}

impl State {
    /// A fresh pool of a shape in range.
    pub fn fresh(shape: Shape) -> State {
        State {
            shape,
            rights: vec![Rights::none(); shape.domains as usize],
            middles: vec![None; shape.middles as usize],
            leaves: vec![None; shape.leaves as usize],
            words: shape.fresh(),
        }
    }

    /// A table exactly for each block and page that wants one.
    pub fn is_settled(&self) -> bool {
        let middles: BTreeSet<Owner> = self.middles.iter().flatten().copied().collect();
        let leaves: BTreeSet<Owner> = self.leaves.iter().flatten().copied().collect();
        middles == wanting_middles(&self.rights) && leaves == wanting_leaves(&self.rights)
    }

    /// The finished pool for these rights, or nothing where there are too few places.
    pub fn finished(&self, rights: Vec<Rights>) -> Option<State> {
        let middles = placed(&self.middles, &wanting_middles(&rights))?;
        let leaves = placed(&self.leaves, &wanting_leaves(&rights))?;
        let mut state = State { shape: self.shape, rights, middles, leaves, words: self.words.clone() };
        state.write_words();
        Some(state)
    }

    /// Writes every root and every owned place; a place that nobody owns holds what it held.
    fn write_words(&mut self) {
        for domain in 0..self.rights.len() {
            self.write(self.shape.root(domain), TABLE, |state, i| state.root_word(domain, i));
        }
        for (place, owner) in owned(&self.middles) {
            self.write(self.shape.middle(place), TABLE, |state, i| state.middle_word(owner, i));
        }
        for (place, owner) in owned(&self.leaves) {
            self.write(self.shape.leaf(place), LEAF, |state, i| state.leaf_word(owner, i));
        }
    }

    fn write(&mut self, at: usize, count: usize, word: impl Fn(&State, u32) -> u32) {
        for i in 0..count {
            self.words[at + i] = word(self, i as u32);
        }
    }

    fn root_word(&self, domain: usize, number: u32) -> u32 {
        match place_of(&self.middles, Owner { domain, number }) {
            Some(place) => self.shape.middle(place) as u32,
            None => 0x8000_0000 | packed(&self.rights[domain], number * BLOCK, BLOCK / 8, 8),
        }
    }

    fn middle_word(&self, table: Owner, index: u32) -> u32 {
        let number = table.number * TABLE as u32 + index;
        match place_of(&self.leaves, Owner { domain: table.domain, number }) {
            Some(place) => self.shape.leaf(place) as u32,
            None => 0x8000_0000 | packed(&self.rights[table.domain], number * PAGE, PAGE / 8, 8),
        }
    }

    fn leaf_word(&self, table: Owner, index: u32) -> u32 {
        let start = table.number * PAGE + index * LINE;
        packed(&self.rights[table.domain], start, 1, 16)
    }
}

/// The blocks of 4 MB in which some 512 KB sub-block has two different rights: an edge lies inside the sub-block.
pub fn wanting_middles(rights: &[Rights]) -> BTreeSet<Owner> {
    wanting(rights, BLOCK)
}

/// The pages of 4 KB in which some 512-byte sub-block has two different rights.
pub fn wanting_leaves(rights: &[Rights]) -> BTreeSet<Owner> {
    wanting(rights, PAGE)
}

/// Whether a shape has places enough for the tables that these rights want.
pub fn has_room(shape: Shape, rights: &[Rights]) -> bool {
    let middles = wanting_middles(rights).len();
    let leaves = wanting_leaves(rights).len();
    middles <= shape.middles as usize && leaves <= shape.leaves as usize
}

fn wanting(rights: &[Rights], block: u32) -> BTreeSet<Owner> {
    let mut owners = BTreeSet::new();
    for (domain, rights) in rights.iter().enumerate() {
        let inside = rights.edges().filter(|edge| !edge.is_multiple_of(block / 8));
        let mut numbers: Vec<u32> = inside.map(|edge| edge / block).collect();
        numbers.dedup();
        owners.extend(numbers.into_iter().map(|number| Owner { domain, number }));
    }
    owners
}

/// The places after a change: a table still wanted keeps its place; new ones, in order, take the lowest places that
/// no kept table occupies. Nothing where there are more wanted tables than places.
fn placed(old: &Owners, wanted: &BTreeSet<Owner>) -> Option<Owners> {
    if wanted.len() > old.len() {
        return None;
    }
    let mut owners: Owners = old.iter().map(|owner| owner.filter(|it| wanted.contains(it))).collect();
    for new in wanted {
        if place_of(&owners, *new).is_none() {
            let lowest = owners.iter().position(Option::is_none)?;
            owners[lowest] = Some(*new);
        }
    }
    Some(owners)
}

/// The places in use, with their owners.
fn owned(owners: &Owners) -> Vec<(usize, Owner)> {
    owners.iter().enumerate().filter_map(|(place, owner)| owner.map(|owner| (place, owner))).collect()
}

fn place_of(owners: &Owners, owner: Owner) -> Option<usize> {
    owners.iter().position(|it| *it == Some(owner))
}

/// The rights of `count` equal parts from a word on, part i in bits 2i+1 and 2i.
fn packed(rights: &Rights, start: u32, part: u32, count: u32) -> u32 {
    let piece = rights.piece(start);
    let whole = piece.end >= start + count * part;
    (0..count).fold(0, |word, i| {
        let right = if whole { piece.right } else { rights.at(start + i * part) };
        word | right << (2 * i)
    })
}
