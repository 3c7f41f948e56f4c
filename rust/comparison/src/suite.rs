//! The comparisons with their seeds, their sizes and the kinds of cases that each must meet.

mod kinds;

use crate::compare::{callers, cuts, gates, lengths, lent, life, listings, pools, reaches, regions, rows};
use crate::compare::{series, slots, Run};
use crate::given::shapes;
use crate::subject::Subject;
use crate::tally::{answers, remainders, Tally};
use crate::Difference;
use kinds::*;
use model::shape::Shape;

/// How a comparison ended.
pub struct Outcome {
    pub tally: Tally,
    pub difference: Option<Difference>,
    pub missing: Vec<String>,
}

impl Outcome {
    /// Prints what was met, and fails on a difference or on a kind that was never met.
    pub fn accept(self) {
        println!("{}", self.tally);
        if let Some(Difference(told)) = self.difference {
            panic!("{told}");
        }
        assert!(self.missing.is_empty(), "never met: {:?}", self.missing);
    }
}

type Body = fn(&mut Run) -> Result<(), Difference>;

/// A comparison: what it does, from which seed, and what it must meet.
pub struct Comparison {
    pub name: &'static str,
    seed: u64,
    body: Body,
    answers: &'static [(&'static str, &'static [u32])],
    /// The kinds of regions that must have been met with starts of every remainder by 4 and lengths of every one.
    regions: &'static [&'static str],
    kinds: &'static [&'static str],
}

impl Comparison {
    /// Runs the comparison on its own cases.
    pub fn run(&self, subject: &dyn Subject) -> Outcome {
        self.run_from(subject, self.seed)
    }

    /// Runs the comparison on the cases of another seed.
    pub fn run_from(&self, subject: &dyn Subject, seed: u64) -> Outcome {
        let mut run = Run::new(subject, seed);
        let difference = (self.body)(&mut run).err();
        let mut kinds: Vec<String> = self.kinds.iter().map(|kind| kind.to_string()).collect();
        for (call, numbers) in self.answers {
            kinds.extend(answers(call, numbers));
        }
        kinds.extend(self.regions.iter().flat_map(|what| remainders(what)));
        Outcome { missing: run.tally.missing(&kinds), tally: run.tally, difference }
    }
}

/// The comparison of a name in [`ALL`].
pub fn named(name: &str) -> &'static Comparison {
    ALL.iter().find(|comparison| comparison.name == name).expect("a comparison of that name")
}

pub const ALL: &[Comparison] = &[
    Comparison {
        name: "rows",
        seed: 1,
        body: rows::rows,
        answers: &[],
        regions: &[],
        kinds: &["row of the paper", "row of lengths"],
    },
    Comparison {
        name: "short series",
        seed: 2,
        body: |run| series::series(run, 150, 8),
        answers: &[("fresh", &[0]), ("change", &[0, 2, 3, 4, 5, 8])],
        regions: &["series: change"],
        kinds: SERIES_KINDS,
    },
    Comparison {
        name: "long series",
        seed: 3,
        body: |run| series::series(run, 56, 80),
        answers: &[("fresh", &[0]), ("change", &[0, 2, 3, 4, 5, 8])],
        regions: &["series: change"],
        kinds: SERIES_KINDS,
    },
    Comparison {
        name: "cuts of any changes",
        seed: 4,
        body: far_cuts,
        answers: &[("change with an allowance", &[0, 100])],
        regions: &[],
        kinds: CUT_KINDS,
    },
    Comparison {
        name: "cuts of changes near each other",
        seed: 5,
        body: near_cuts,
        answers: &[("change with an allowance", &[0, 100]), ("tidying with an allowance", &[0, 100])],
        regions: &[],
        kinds: CUT_KINDS,
    },
    Comparison {
        name: "cuts that leave a table unwanted",
        seed: 6,
        body: cuts::unwanted,
        answers: &[("change with an allowance", &[0, 100]), ("tidying with an allowance", &[0, 100])],
        regions: &[],
        kinds: UNSETTLED,
    },
    Comparison {
        name: "lives",
        seed: 13,
        body: |run| life::lives(run, 24, 120),
        answers: &[],
        regions: &["life: change and flush"],
        kinds: LIFE_KINDS,
    },
    Comparison {
        name: "pools",
        seed: 7,
        body: |run| pools::pools(run, 800),
        answers: &[
            ("fresh", &[1]),
            ("change of any pool", &[0, 1, 2, 3, 4, 5, 6, 7, 8, 100]),
            ("tidying of any pool", &[0, 1, 6, 100]),
            ("lookup in any pool", &[0, 1, 2, 6]),
        ],
        regions: &[],
        kinds: POOL_KINDS,
    },
    Comparison {
        name: "tidyings",
        seed: 8,
        body: |run| pools::tidyings(run, 120),
        answers: &[("tidying with an allowance", &[0, 100])],
        regions: &[],
        kinds: &["sound pool, settled", "sound pool, not settled"],
    },
    Comparison {
        name: "listings",
        seed: 9,
        body: |run| listings::listings(run, 300),
        answers: &[("listing", &[0, 1, 6])],
        regions: &[],
        kinds: LISTING_KINDS,
    },
    Comparison {
        name: "slots",
        seed: 10,
        body: |run| slots::slots(run, 400),
        answers: &[
            ("check", &[0, 1, 2, 6, 9, 10, 18, 101]),
            ("flush of all", &[0, 18, 101]),
            ("flush of a domain", &[0, 18, 101]),
            ("flush of a region", &[0, 4, 5, 18, 101]),
        ],
        regions: &["flush of a region"],
        kinds: SLOT_KINDS,
    },
    Comparison {
        name: "gates",
        seed: 11,
        body: |run| gates::settings(run, 400),
        answers: &[
            ("setting a switch gate", &[0, 1, 2, 11, 12, 14, 18, 101]),
            ("setting a return gate", &[0, 1, 2, 11, 12, 18, 101]),
            ("removing a gate", &[0, 1, 2, 11, 13, 18, 101]),
        ],
        regions: &[],
        kinds: &["setting replaces a gate", "setting adds a gate"],
    },
    Comparison {
        name: "steps",
        seed: 12,
        body: |run| gates::steps(run, 600),
        answers: &[("step", &[0, 1, 2, 6, 10, 15, 16, 17, 18, 101])],
        regions: &[],
        kinds: STEP_KINDS,
    },
    Comparison {
        name: "lent shapes",
        seed: 14,
        body: |run| lent::shapes(run, 600),
        answers: &[
            ("fresh by a lent shape", &[0, 1, 101]),
            ("change by a lent shape", &[0, 1, 2, 3, 4, 5, 6, 7, 8, 100, 101]),
            ("change by a caller by a lent shape", &[0, 1, 2, 3, 4, 5, 6, 7, 8, 18, 19, 100, 101]),
            ("tidying by a lent shape", &[0, 1, 6, 100, 101]),
            ("lookup by a lent shape", &[0, 1, 2, 6, 101]),
            ("listing by a lent shape", &[0, 1, 6, 101]),
            ("check by a lent shape", &[0, 1, 2, 6, 9, 10, 18, 101]),
            ("step by a lent shape", &[0, 1, 2, 10, 18, 101]),
        ],
        regions: &[],
        kinds: LENT_KINDS,
    },
    Comparison {
        name: "lengths",
        seed: 15,
        body: lengths::lengths,
        answers: &[("change", &[0, 4, 5]), ("flush of a region", &[0, 4, 5]), ("making a region", &[0, 4, 5])],
        regions: &[
            "change",
            "change of the last word",
            "change past the end",
            "change with every cut",
            "change of the last word with every cut",
            "flush of a region",
            "flush of a region of the last word",
            "flush of a region past the end",
            "making a region",
            "making a region of the last word",
            "making a region past the end",
        ],
        kinds: &[],
    },
    Comparison {
        name: "regions",
        seed: 16,
        body: |run| regions::lists(run, 1500),
        answers: &[
            ("making a region", &[0, 1, 2, 4, 5, 18, 19, 20, 101]),
            ("passing a region", &[0, 1, 2, 4, 5, 18, 19, 101]),
            ("giving an export", &[0, 1, 2, 3, 4, 5, 18, 19, 101]),
        ],
        regions: &["making a region", "passing a region", "giving an export"],
        kinds: REGION_KINDS,
    },
    Comparison {
        name: "changes by callers",
        seed: 17,
        body: |run| callers::callers(run, 320, 60),
        answers: &[
            ("change by a caller", &[0, 1, 2, 3, 4, 5, 6, 7, 8, 18, 19, 100, 101]),
            ("making a region", &[0, 19]),
            ("passing a region", &[0, 19]),
            ("giving an export", &[0, 19]),
        ],
        regions: &["change by a caller"],
        kinds: CALLER_KINDS,
    },
    Comparison {
        name: "reaches",
        seed: 18,
        body: |run| reaches::reaches(run, 100, 150),
        answers: &[("reach", &[0, 1, 2, 6, 101])],
        regions: &[],
        kinds: REACH_KINDS,
    },
];

/// Every cut in series on a few shapes, the full one among them.
fn far_cuts(run: &mut Run) -> Result<(), Difference> {
    for _ in 0..4 {
        let shape = shapes::small(&mut run.rng);
        cuts::far(run, shape, 12)?;
    }
    cuts::far(run, Shape::new(1, 1, 1), 12)?;
    cuts::far(run, Shape::new(2, 2, 3), 12)?;
    cuts::far(run, Shape::new(4, 8, 64), 8)
}

fn near_cuts(run: &mut Run) -> Result<(), Difference> {
    cuts::near(run, Shape::new(1, 1, 4), 60)?;
    cuts::near(run, Shape::new(2, 2, 4), 60)?;
    cuts::near(run, Shape::new(3, 3, 8), 30)
}
