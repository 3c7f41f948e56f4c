//! Listings: all runs of a pool, asked for at most twice.

use crate::{Refusal, Right};

/// For so many runs there is room at first, which is enough for most pools.
const AT_FIRST: usize = 64;

/// A longest run of one right other than none.
#[derive(Clone, Copy, Debug, PartialEq, Eq, Hash)]
pub struct Run {
    /// The domain that has the right.
    pub domain: u32,
    /// The address where the run begins.
    pub first_byte: u32,
    /// The last address in it.
    pub last_byte: u32,
    /// The right.
    pub right: Right,
}

impl Run {
    /// A run's four words.
    fn of(words: &[u32]) -> Run {
        Run { domain: words[0], first_byte: words[1], last_byte: words[2], right: Right::of(words[3]) }
    }
}

/// All runs. `list` writes those from a number on into lent words, as many as fit, and tells how many there are in all.
/// Each call of it goes over the whole pool, so the second is given room for all that the first left.
pub(crate) fn gather(mut list: impl FnMut(u32, &mut [u32]) -> Result<u32, Refusal>) -> Result<Vec<Run>, Refusal> {
    let mut lent = [0; 4 * AT_FIRST];
    let total = list(0, &mut lent)? as usize;
    let mut runs = Vec::with_capacity(total);
    runs.extend(lent.chunks_exact(4).take(total).map(Run::of));
    if total > AT_FIRST {
        let mut rest = vec![0; 4 * (total - AT_FIRST)];
        list(AT_FIRST as u32, &mut rest)?;
        runs.extend(rest.chunks_exact(4).map(Run::of));
    }
    Ok(runs)
}

#[cfg(test)]
mod tests {
    use super::*;

    fn run(number: u32) -> [u32; 4] {
        [number % 4, 8 * number, 8 * number + 3, 1 + number % 3]
    }

    /// The runs gathered from a pool that has `total` of them, and how often it was asked.
    fn gathered(total: u32) -> (Vec<Run>, usize) {
        let mut calls = 0;
        let runs = gather(|from, lent| {
            calls += 1;
            lent.chunks_exact_mut(4).zip(from..total).for_each(|(words, number)| words.copy_from_slice(&run(number)));
            Ok(total)
        });
        (runs.unwrap(), calls)
    }

    #[test]
    fn all_runs_in_at_most_two_calls() {
        for (total, most) in [(0, 1), (1, 1), (63, 1), (64, 1), (65, 2), (200, 2), (160_000, 2)] {
            let (runs, calls) = gathered(total);
            assert!(runs.into_iter().eq((0..total).map(|number| Run::of(&run(number)))));
            assert!(calls <= most, "{total} runs took {calls} calls");
        }
    }

    #[test]
    fn a_refusal_ends_it() {
        let refusal = Refusal::none_or(6).unwrap_err();
        assert_eq!(gather(|_, _| Err(refusal)), Err(refusal));
    }
}
