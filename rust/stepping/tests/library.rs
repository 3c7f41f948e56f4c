//! The library as it is shipped, watched. What cannot be linked cannot be watched either: on a machine that is not an
//! x86-64 these tests are not run, unless GOLEUTHAN_LIBRARY names a library for it (rust/README.md).

use stepping::suite::{named, Way, ALL};

/// A test for each group and each way to watch, so that a difference is told by its name.
macro_rules! groups {
    ($way:ident, $module:ident, $($test:ident: $name:literal),* $(,)?) => {
        mod $module {
            use super::*;

            $(
                #[test]
                #[cfg_attr(not(linked), ignore = "no library is linked that could be watched")]
                fn $test() {
                    named($name).accept(Way::$way);
                }
            )*

            #[test]
            fn every_group_is_watched() {
                assert!(ALL.iter().map(|group| group.name).eq([$($name),*]));
            }
        }
    };
    ($($tests:tt)*) => {
        groups!(EveryInstruction, every_instruction, $($tests)*);
        groups!(EveryStore, every_store, $($tests)*);
    };
}

groups! {
    small_pools: "small pools",
    near_changes: "near changes",
    full_pools: "full pools",
    tidyings: "tidyings",
    refusals: "refusals",
    changes_by_callers: "changes by callers",
}

/// Calls of other seeds, by hand: `SEEDS=3 cargo test --release -p stepping -- --ignored long_run --show-output`.
#[test]
#[ignore = "takes as long as it is told to"]
fn long_run() {
    let seeds = std::env::var("SEEDS").ok().and_then(|seeds| seeds.parse().ok()).unwrap_or(1);
    for seed in 1000..1000 + seeds {
        for group in ALL {
            group.run(Way::EveryInstruction, seed, 12);
            group.run(Way::EveryStore, seed, 120);
        }
    }
}
