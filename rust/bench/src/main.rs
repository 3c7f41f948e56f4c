//! The library beside its plain Rust twin, case by case, in one run; and for scale beside other ways.
//!
//! `bench` measures every case and prints a markdown table; `bench others` does so beside an interval map and
//! `mprotect`. `bench CASE` measures one case. `bench CASE library|twin TIMES` runs one case that many times and prints
//! nothing, so that an instruction counter can look at it; `bench cases` prints the names.
#![deny(unsafe_code)]

mod callers;
mod cases;
mod direct;
mod measure;
mod others;
mod pages;
mod segments;

use cases::{Body, Case, CASES};
use comparison::subject::{Library, Twin};
use measure::{compare, Measured};
use others::OTHERS;

fn main() {
    if !goleuthan::LINKED {
        eprintln!("The library is not linked on this machine but runs under an emulator: times would say nothing.");
        eprintln!("Set GOLEUTHAN_LIBRARY to a folder with a libgoleuthan.a for this machine (see native.sh).");
        std::process::exit(1);
    }
    let words: Vec<String> = std::env::args().skip(1).collect();
    let words: Vec<&str> = words.iter().map(String::as_str).collect();
    match words[..] {
        [] => table("Twin", CASES.iter().map(beside_twin)),
        ["others"] => table("Other", OTHERS.iter().map(|other| (other.says, (other.library)(), (other.other)()))),
        ["cases"] => CASES.iter().for_each(|case| println!("{}", case.name)),
        [name] => table("Twin", [beside_twin(named(name))].into_iter()),
        [name, subject, times] => one(name, subject, times),
        _ => usage(),
    }
}

fn usage() -> ! {
    eprintln!("usage: bench | bench others | bench cases | bench CASE | bench CASE library|twin TIMES");
    std::process::exit(2);
}

fn named(name: &str) -> &'static Case {
    CASES.iter().find(|case| case.name == name).unwrap_or_else(|| usage())
}

fn one(name: &str, subject: &str, times: &str) {
    let case = named(name);
    let times = times.parse().unwrap_or_else(|_| usage());
    match subject {
        "library" => (case.library)(&Library)(times),
        "twin" => (case.twin)(&Twin)(times),
        _ => usage(),
    }
}

/// What is measured, the library's body, and the other's.
type Row = (&'static str, Body, Body);

fn beside_twin(case: &Case) -> Row {
    (case.says, (case.library)(&Library), (case.twin)(&Twin))
}

fn table(beside: &str, rows: impl Iterator<Item = Row>) {
    println!("| Case | Library | {beside} | Ratio | Spread of the library | Spread of the {} |", beside.to_lowercase());
    println!("|---|---|---|---|---|---|");
    for (says, library, other) in rows {
        let (library, other, ratio) = compare(library, other);
        println!(
            "| {says} | {} | {} | {ratio:.2} | {} | {} |",
            time(library.median),
            time(other.median),
            spread(&library),
            spread(&other)
        );
    }
}

fn time(nanoseconds: f64) -> String {
    if nanoseconds < 1000.0 {
        format!("{nanoseconds:.1} ns")
    } else {
        format!("{:.2} µs", nanoseconds / 1000.0)
    }
}

fn spread(measured: &Measured) -> String {
    format!("{} to {}", time(measured.low), time(measured.high))
}
