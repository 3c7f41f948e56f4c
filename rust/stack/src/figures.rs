//! The figures that the papers state, and the most that each call was seen to take.

use crate::LIMIT;
use std::collections::BTreeMap;

/// A stated figure may be so much above what is measured: another processor's memcpy may take a little more or less.
const SLACK: usize = 32;

/// The most bytes that each call took, by its name in the header.
#[derive(Default)]
pub struct Figures(BTreeMap<String, usize>);

impl Figures {
    pub fn took(&mut self, call: &str, bytes: usize) {
        let most = self.0.entry(call.to_string()).or_default();
        *most = bytes.max(*most);
    }

    pub fn of(&self, call: &str) -> Option<usize> {
        self.0.get(call).copied()
    }

    pub fn calls(&self) -> impl Iterator<Item = (&str, usize)> {
        self.0.iter().map(|(call, bytes)| (call.as_str(), *bytes))
    }

    /// What is wrong with figures that a paper states: a call that it leaves out, one that takes more than is stated,
    /// much less, or more than the limit; and a figure for no call.
    pub fn faults(&self, stated: &BTreeMap<String, usize>) -> Vec<String> {
        let mut faults = Vec::new();
        for (call, bytes) in self.calls() {
            match stated.get(call) {
                _ if bytes > LIMIT => faults.push(format!("{call} takes {bytes} bytes, more than {LIMIT}")),
                None => faults.push(format!("no figure is stated for {call}, which takes {bytes}")),
                Some(said) if bytes > *said => {
                    faults.push(format!("{call} takes {bytes} bytes, and {said} are stated"))
                }
                Some(said) if *said > LIMIT => faults.push(format!("{said} bytes are stated for {call}")),
                Some(said) if *said > bytes + SLACK => {
                    faults.push(format!("{call} takes {bytes} bytes, and {said} are stated, out of date"))
                }
                Some(_) => {}
            }
        }
        let unknown = stated.keys().filter(|call| !self.0.contains_key(*call));
        faults.extend(unknown.map(|call| format!("a figure is stated for {call}, which was not measured")));
        faults
    }
}

/// The figures of a text: lines that hold the name of a call, then a number, with nothing but signs around them. In
/// the header they are ` *   gol_change  936`, in a table `| gol_change | 936 |`.
pub fn stated(text: &str) -> BTreeMap<String, usize> {
    let parts = |line: &str| -> Vec<String> {
        let words = line.split(|c: char| c.is_whitespace() || c == '|' || c == '*' || c == '`');
        words.filter(|word| !word.is_empty()).map(str::to_string).collect()
    };
    let figure = |line: &str| match &parts(line)[..] {
        [call, bytes] if call.starts_with("gol_") => Some((call.clone(), bytes.replace(',', "").parse().ok()?)),
        _ => None,
    };
    text.lines().filter_map(figure).collect()
}
