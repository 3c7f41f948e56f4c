//! Walks over a range of bytes, a lookup for each stretch of one right.

use crate::{Found, Refusal, Right, Table};
use std::iter::FusedIterator;
use std::ops::{Bound, RangeBounds};

/// Bytes side by side on which a domain has one right.
#[derive(Clone, Copy, Debug, PartialEq, Eq, Hash)]
pub struct Stretch {
    /// The right.
    pub right: Right,
    /// The address where the stretch begins.
    pub first_byte: u32,
    /// The last address in it.
    pub last_byte: u32,
}

/// The stretches of a range of bytes, as [`Table::stretches`] walks them.
#[derive(Clone, Debug)]
#[must_use = "a lookup is made only when the next stretch is asked for"]
pub struct Stretches<'a> {
    table: &'a Table<'a>,
    domain: u32,
    /// The first and the last byte that are still to be walked.
    left: Option<(u32, u32)>,
}

impl<'a> Stretches<'a> {
    pub(crate) fn new(table: &'a Table<'a>, domain: u32, bytes: impl RangeBounds<u32>) -> Stretches<'a> {
        Stretches { table, domain, left: ends(bytes) }
    }
}

impl Iterator for Stretches<'_> {
    type Item = Result<Stretch, Refusal>;

    fn next(&mut self) -> Option<Self::Item> {
        step(&mut self.left, |address| self.table.lookup(self.domain, address))
    }
}

impl FusedIterator for Stretches<'_> {}

/// The first and the last byte of a range that is not empty.
fn ends(bytes: impl RangeBounds<u32>) -> Option<(u32, u32)> {
    let first = match bytes.start_bound() {
        Bound::Included(first) => *first,
        Bound::Excluded(before) => before.checked_add(1)?,
        Bound::Unbounded => 0,
    };
    let last = match bytes.end_bound() {
        Bound::Included(last) => *last,
        Bound::Excluded(end) => end.checked_sub(1)?,
        Bound::Unbounded => u32::MAX,
    };
    (first <= last).then_some((first, last))
}

/// The next stretch of the bytes that are left, by one lookup; nothing is left after the last byte or a refusal.
fn step(
    left: &mut Option<(u32, u32)>,
    lookup: impl FnOnce(u32) -> Result<Found, Refusal>,
) -> Option<Result<Stretch, Refusal>> {
    let (first_byte, last) = left.take()?;
    Some(lookup(first_byte).map(|Found { right, last_byte, .. }| {
        let last_byte = last_byte.min(last);
        if last_byte < last {
            *left = Some((last_byte + 1, last));
        }
        Stretch { right, first_byte, last_byte }
    }))
}

#[cfg(test)]
mod tests {
    use super::*;

    /// Found in a memory where each 64 bytes are one stretch.
    fn found(address: u32) -> Found {
        let (first_byte, last_byte) = (address & !63, address | 63);
        Found { right: Right::of(address >> 6), entry: 0, loads: 3, first_byte, last_byte }
    }

    /// The first and last bytes of the stretches of a range, and the addresses that were looked up.
    fn walked(bytes: impl RangeBounds<u32>) -> (Vec<(u32, u32)>, Vec<u32>) {
        let (mut left, mut stretches, mut asked) = (ends(bytes), Vec::new(), Vec::new());
        while let Some(stretch) = step(&mut left, |address| {
            asked.push(address);
            Ok(found(address))
        }) {
            let Stretch { right, first_byte, last_byte } = stretch.unwrap();
            assert_eq!(right, found(first_byte).right);
            stretches.push((first_byte, last_byte));
        }
        (stretches, asked)
    }

    #[test]
    fn one_lookup_a_stretch() {
        assert_eq!(walked(0x40..0x80), (vec![(0x40, 0x7F)], vec![0x40]));
        assert_eq!(walked(0x40..=0x80), (vec![(0x40, 0x7F), (0x80, 0x80)], vec![0x40, 0x80]));
        assert_eq!(walked(0x42..0xC1), (vec![(0x42, 0x7F), (0x80, 0xBF), (0xC0, 0xC0)], vec![0x42, 0x80, 0xC0]));
        assert_eq!(walked(0x42..=0x42), (vec![(0x42, 0x42)], vec![0x42]));
        assert_eq!(walked(..0x41), (vec![(0, 0x3F), (0x40, 0x40)], vec![0, 0x40]));
    }

    #[test]
    fn to_the_end_of_memory() {
        let last = (0xFFFF_FFC0, u32::MAX);
        assert_eq!(walked(0xFFFF_FFC0..), (vec![last], vec![0xFFFF_FFC0]));
        assert_eq!(walked(0xFFFF_FF80..=u32::MAX).0, [(0xFFFF_FF80, 0xFFFF_FFBF), last]);
        assert_eq!(walked(u32::MAX..).0, [(u32::MAX, u32::MAX)]);
        assert_eq!(walked(0xFFFF_FFC0..u32::MAX).0, [(0xFFFF_FFC0, 0xFFFF_FFFE)]);
        let after = (Bound::Excluded(0xFFFF_FFFD), Bound::Unbounded);
        assert_eq!(walked(after).0, [(0xFFFF_FFFE, u32::MAX)]);
    }

    #[test]
    fn an_empty_range_makes_no_lookup() {
        let reversed = (Bound::Included(9), Bound::Included(8));
        for empty in [ends(0..0), ends(7..7), ends(reversed), ends((Bound::Excluded(u32::MAX), Bound::Unbounded))] {
            assert_eq!(empty, None);
        }
        assert_eq!(walked(5..5), (Vec::new(), Vec::new()));
        let mut spent = 3..=3;
        spent.next();
        assert_eq!(ends(spent), None);
    }

    #[test]
    fn a_refusal_ends_it() {
        let refusal = Refusal::none_or(6).unwrap_err();
        let mut left = ends(0..0x100);
        assert!(matches!(step(&mut left, |address| Ok(found(address))), Some(Ok(_))));
        assert_eq!(step(&mut left, |_| Err(refusal)), Some(Err(refusal)));
        assert_eq!(step(&mut left, |_| unreachable!("it has ended")), None);
    }
}
