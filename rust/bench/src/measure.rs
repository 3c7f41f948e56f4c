//! Repetitions by turns, median and spread.

use crate::cases::Body;
use std::time::{Duration, Instant};

/// Nanoseconds a run: the median of the repetitions, and their quartiles.
pub struct Measured {
    pub median: f64,
    pub low: f64,
    pub high: f64,
}

/// Many short batches: on a machine that others use, most are then not interrupted, and the median is of those.
const REPETITIONS: usize = 301;
const BATCH: Duration = Duration::from_micros(500);

/// Measures two bodies by turns, so that both meet the same disturbances; the ratio is the median of the turns' ratios.
pub fn compare(mut one: Body, mut other: Body) -> (Measured, Measured, f64) {
    let (one_times, other_times) = (fitting(&mut one), fitting(&mut other));
    let (mut ones, mut others) = (Vec::new(), Vec::new());
    for _ in 0..REPETITIONS {
        ones.push(batch(&mut one, one_times));
        others.push(batch(&mut other, other_times));
    }
    let ratios = ones.iter().zip(&others).map(|(one, other)| one / other).collect();
    (measured(ones), measured(others), measured(ratios).median)
}

/// How many runs make a batch.
fn fitting(body: &mut Body) -> u64 {
    let mut times = 1;
    loop {
        let start = Instant::now();
        body(times);
        if start.elapsed() >= BATCH {
            return times;
        }
        times *= 2;
    }
}

fn batch(body: &mut Body, times: u64) -> f64 {
    let start = Instant::now();
    body(times);
    start.elapsed().as_nanos() as f64 / times as f64
}

fn measured(mut times: Vec<f64>) -> Measured {
    times.sort_by(f64::total_cmp);
    let at = |part: usize| times[(times.len() - 1) * part / 4];
    Measured { median: at(2), low: at(1), high: at(3) }
}
