//! The listing program against the model: what it prints for generated inputs.

use comparison::given::lines;
use comparison::rng::Rng;
use comparison::tally::{answers, remainders, Tally};
use model::program::{output, parse};
use std::io::Write;
use std::path::{Path, PathBuf};
use std::process::{Command, Stdio};

fn root() -> PathBuf {
    Path::new(env!("CARGO_MANIFEST_DIR")).join("../..")
}

/// Runs the program on an input and gives what it printed.
fn printed(input: &[u8]) -> Vec<u8> {
    let program = root().join("crates/rights_listing/out/rights_listing");
    assert!(program.exists(), "{} is missing: run rights_listing.sh first", program.display());
    let mut child = Command::new("sh")
        .arg(root().join("scripts/run.sh"))
        .arg(program)
        .stdin(Stdio::piped())
        .stdout(Stdio::piped())
        .spawn()
        .expect("the program starts");
    let mut stdin = child.stdin.take().expect("it has a standard input");
    let given = input.to_vec();
    let writer = std::thread::spawn(move || stdin.write_all(&given));
    let ended = child.wait_with_output().expect("the program ends");
    writer.join().expect("the writer ends").expect("the program reads all its input");
    assert!(ended.status.success(), "the program ended with {}", ended.status);
    ended.stdout
}

/// Compares one input, and counts the numbers that were printed for its lines.
fn compare(tally: &mut Tally, what: &str, input: &[u8]) {
    let must = output(input);
    let printed = printed(input);
    if printed != must.as_bytes() {
        let given = String::from_utf8_lossy(&input[..input.len().min(400)]);
        let told = String::from_utf8_lossy(&printed);
        let at = told.lines().zip(must.lines()).position(|(line, must)| line != must);
        panic!("{what}: differs at output line {at:?} (from 0) of {}; input begins {given:?}", must.lines().count());
    }
    for line in must.lines() {
        match line.parse() {
            Ok(number) => tally.answered("line", number),
            Err(_) => tally.met("run listed"),
        }
    }
    let changes = input.split(|byte| *byte == b'\n').map(parse);
    for (change, number) in changes.zip(must.lines()) {
        match (change, number) {
            (Some(change), "0") => tally.region("line done", change.start, change.length),
            (Some(change), "5") => tally.region("line refused 5", change.start, change.length),
            _ => {}
        }
    }
}

/// Each number, runs, and lines done with starts of every remainder and lengths of every remainder must have been met,
/// and these kinds of regions so too.
fn accept(tally: Tally, regions: &[&str]) {
    println!("{tally}");
    let mut kinds = answers("line", &[0, 2, 3, 4, 5, 8, 99]);
    kinds.push("run listed".to_string());
    kinds.extend(["line done"].iter().chain(regions).flat_map(|what| remainders(what)));
    let missing = tally.missing(&kinds);
    assert!(missing.is_empty(), "never met: {missing:?}");
}

#[test]
fn inputs_with_one_thing_each() {
    let mut tally = Tally::default();
    for (what, input) in lines::named() {
        compare(&mut tally, what, &input);
    }
    accept(tally, &["line refused 5"]);
}

#[test]
fn random_lines_and_bytes() {
    let mut rng = Rng::new(21);
    let mut tally = Tally::default();
    for _ in 0..25 {
        let input = lines::random(&mut rng, 120);
        compare(&mut tally, "random lines", &input);
        let input = lines::bytes(&mut rng, 3000);
        compare(&mut tally, "random bytes", &input);
    }
    accept(tally, &[]);
}

#[test]
fn tens_of_thousands_of_runs() {
    let input = lines::many_runs(20);
    let must = output(&input);
    assert!(must.lines().filter(|line| line.contains(' ')).count() > 20_000);
    compare(&mut Tally::default(), "many runs", &input);
}
