//! The groups of watched calls with their seeds and the kinds of calls that each must meet.

use crate::cases;
use crate::run::Run;
use crate::watch::{every_instruction, every_store, library, Watched, Watcher};
use comparison::tally::answers;
use comparison::Difference;

/// The two ways to watch. The first misses nothing but a word that is written with what it holds; the second sees that
/// too, takes a tenth of the time, and rests on the pool's pages being shut in between.
#[derive(Clone, Copy, Debug)]
pub enum Way {
    EveryInstruction,
    EveryStore,
}

impl Way {
    fn watcher(self) -> Watcher {
        match self {
            Way::EveryInstruction => every_instruction,
            Way::EveryStore => every_store,
        }
    }

    /// How much was watched, in words.
    fn tell(self, watched: &Watched) -> String {
        let Watched { instructions, stores, writers } = watched;
        match self {
            Way::EveryInstruction => format!("{instructions} instructions stepped through, {stores} stores"),
            Way::EveryStore => format!("{stores} stores, by {} instruction(s) of the code", writers.len()),
        }
    }
}

/// A group of calls: how they are made, how many, by the way in which they are watched, and what must be met among
/// them.
pub struct Group {
    pub name: &'static str,
    seed: u64,
    turns: [usize; 2],
    body: fn(&mut Run, usize) -> Result<(), Difference>,
    answers: &'static [(&'static str, &'static [u32])],
    kinds: &'static [&'static str],
}

impl Group {
    /// Watches the group's own calls of the library; fails on a difference, and where a kind was never met.
    pub fn accept(&self, way: Way) {
        let run = self.run(way, self.seed, self.turns[way as usize]);
        let mut kinds: Vec<String> = self.kinds.iter().map(|kind| kind.to_string()).collect();
        self.answers.iter().for_each(|(call, numbers)| kinds.extend(answers(call, numbers)));
        let missing = run.tally.missing(&kinds);
        assert!(missing.is_empty(), "never met: {missing:?}");
    }

    /// Watches calls of a seed, and prints what was met and how much was watched.
    pub fn run(&self, way: Way, seed: u64, turns: usize) -> Run {
        let mut run = Run::new(way.watcher(), library, seed);
        let ended = (self.body)(&mut run, turns);
        print!("{}", run.tally);
        println!("{}: {}", self.name, way.tell(&run.watched));
        if let Err(Difference(told)) = ended {
            panic!("{}, {way:?}, seed {seed}: {told}", self.name);
        }
        run
    }
}

/// The group of a name in [`ALL`].
pub fn named(name: &str) -> &'static Group {
    ALL.iter().find(|group| group.name == name).expect("a group of that name")
}

pub const ALL: &[Group] = &[
    Group {
        name: "small pools",
        seed: 1,
        turns: [1, 1],
        body: cases::small_pools,
        answers: &[("change", &[0, 100])],
        kinds: &[
            "the smallest pool",
            "a pool with one place of each kind",
            "a middle table is made",
            "a middle table is given up",
            "a middle table takes the place of one given up",
            "a leaf is made",
            "a leaf is given up",
            "a leaf takes the place of one given up",
            "nothing is to be stored",
            "change with an allowance of none",
            "change with an allowance of one",
            "change with an allowance of half",
            "change with an allowance of all but one",
            "change with an allowance of all",
            "change with an allowance of more than all",
        ],
    },
    Group {
        name: "near changes",
        seed: 2,
        turns: [1, 10],
        body: cases::near_changes,
        answers: &[("change", &[0, 100])],
        kinds: &["a middle table is made", "a leaf is made", "a leaf is given up"],
    },
    Group {
        name: "full pools",
        seed: 3,
        turns: [1, 10],
        body: cases::full_pools,
        answers: &[("change", &[0, 8, 100])],
        kinds: &[
            "the largest pool, all places in use",
            "a middle table is given up",
            "a leaf is given up",
            "a leaf takes the place of one given up",
            "several tables are given up",
        ],
    },
    Group {
        name: "tidyings",
        seed: 4,
        turns: [8, 60],
        body: cases::tidyings,
        answers: &[("tidying", &[0, 100])],
        kinds: &[
            "the smallest pool",
            "the largest pool, all places in use",
            "a middle table is given up",
            "a leaf is given up",
            "several tables are given up",
            "nothing is to be stored",
            "tidying with an allowance of none",
            "tidying with an allowance of one",
            "tidying with an allowance of half",
            "tidying with an allowance of all but one",
            "tidying with an allowance of all",
            "tidying with an allowance of more than all",
        ],
    },
    Group {
        name: "refusals",
        seed: 5,
        turns: [1, 4],
        body: cases::refusals,
        answers: &[("change", &[1, 2, 3, 4, 5, 6, 7, 8]), ("tidying", &[1, 6])],
        kinds: &[],
    },
    Group {
        name: "changes by callers",
        seed: 6,
        turns: [1, 1],
        body: cases::callers,
        answers: &[("change by a caller", &[0, 1, 2, 3, 4, 5, 6, 7, 8, 18, 19, 100])],
        kinds: &[
            "a middle table is made",
            "a middle table is given up",
            "a leaf is made",
            "a leaf is given up",
            "change by a caller with an allowance of none",
            "change by a caller with an allowance of one",
            "change by a caller with an allowance of half",
            "change by a caller with an allowance of all but one",
            "change by a caller with an allowance of all",
            "change by a caller with an allowance of more than all",
        ],
    },
];
