//! The library as it is shipped, on a painted stack: each call takes at most what the header and the benchmarks state,
//! and that is within the limit. On a machine that is not an x86-64 there is nothing to measure.
#![cfg(shipped)]

use comparison::rng::Rng;
use comparison::tally::{answers, Tally};
use stack::calls::{of_changes, of_reads, of_regions, of_states, Call, FUNCTIONS};
use stack::figures::{stated, Figures};
use stack::LIMIT;

/// The turns of each group of calls, and the answers that each call must have met: those that it gives deepest.
type Group = (fn(&mut Rng, usize) -> Vec<Call>, usize);
const GROUPS: [Group; 4] = [(of_changes, 3000), (of_reads, 1500), (of_states, 1500), (of_regions, 3000)];

const MET: &[(&str, &[u32])] = &[
    ("gol_fresh", &[0]),
    ("gol_change", &[0, 2, 5, 6, 7, 8, 100]),
    ("gol_change_by", &[0, 2, 6, 7, 8, 18, 19, 100]),
    ("gol_tidy", &[0, 6, 100]),
    ("gol_lookup", &[0, 6]),
    ("gol_list", &[0, 6]),
    ("gol_check", &[0, 6, 9, 18]),
    ("gol_step", &[0, 2, 6, 15, 16, 17, 18]),
    ("gol_flush_all", &[0, 18]),
    ("gol_flush_domain", &[0, 18]),
    ("gol_flush_region", &[0, 4, 5, 18]),
    ("gol_set_switch_gate", &[0, 12, 14]),
    ("gol_set_return_gate", &[0, 12]),
    ("gol_remove_gate", &[0, 13]),
    ("gol_make_region", &[0, 19, 20]),
    ("gol_pass_region", &[0, 19]),
    ("gol_give_export", &[0, 19]),
];

fn measured() -> Figures {
    let (mut figures, mut tally) = (Figures::default(), Tally::default());
    for (group, turns) in GROUPS {
        let mut rng = Rng::new(17);
        for call in (0..turns).flat_map(|turn| group(&mut rng, turn)) {
            let taken = call.taken();
            figures.took(call.name, taken.bytes);
            tally.answered(call.name, taken.number);
        }
    }
    println!("Bytes of stack, of at most {LIMIT}:");
    for (call, bytes) in figures.calls() {
        println!("{bytes:>6}  {call}");
    }
    let kinds: Vec<String> = MET.iter().flat_map(|(call, numbers)| answers(call, numbers)).collect();
    let missing = tally.missing(&kinds);
    assert!(missing.is_empty(), "never met: {missing:?}");
    figures
}

fn paper(path: &str) -> String {
    std::fs::read_to_string(format!("{}/../../{path}", env!("CARGO_MANIFEST_DIR"))).expect("the paper is there")
}

#[test]
fn every_call_takes_what_is_stated() {
    let figures = measured();
    assert_eq!(figures.calls().count(), FUNCTIONS.len(), "a call of the header was not made");
    for path in ["include/goleuthan.h", "docs/BENCHMARKS.md"] {
        let faults = figures.faults(&stated(&paper(path)));
        assert!(faults.is_empty(), "{path}: {faults:#?}");
    }
}

/// The header declares no call that is not measured.
#[test]
fn every_call_of_the_header_is_measured() {
    let header = paper("include/goleuthan.h");
    let declared = header.lines().filter_map(|line| line.strip_prefix("uint32_t ")?.split('(').next());
    let mut declared: Vec<&str> = declared.collect();
    let mut measured: Vec<&str> = FUNCTIONS.iter().map(|(name, _)| *name).collect();
    declared.sort_unstable();
    measured.sort_unstable();
    assert_eq!(declared, measured);
}
