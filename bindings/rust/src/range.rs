//! The pairs between two keys.

use crate::pass::MOST_LISTED;
use crate::{again, Fault, Pass};
use std::iter::FusedIterator;
use std::ops::{Bound, RangeBounds};

/// The pairs between two keys by rising key, as [`Pass::range`] answers them. They are read 64 at a
/// time: those of one such chunk are of one moment, two chunks are not. A chunk that is
/// contended is read again.
///
/// ```
/// let mut passes = regnubas::make(1, regnubas::Limits::for_changes(10, 10))?;
/// for key in [9, 5, 7] {
///     passes[0].insert(key, u128::from(key) * 10)?;
/// }
/// let pairs: Result<Vec<_>, _> = passes[0].range(6..).collect();
/// assert_eq!(pairs?, [(7, 70), (9, 90)]);
/// # Ok::<(), regnubas::Fault>(())
/// ```
#[derive(Debug)]
pub struct Range<'a> {
    pass: &'a mut Pass,
    chunk: std::vec::IntoIter<(u64, u128)>,
    /// The least and the greatest key of what is not read yet.
    unread: Option<(u64, u64)>,
}

impl<'a> Range<'a> {
    pub(crate) fn new(pass: &'a mut Pass, keys: impl RangeBounds<u64>) -> Range<'a> {
        Range { pass, chunk: Vec::new().into_iter(), unread: ends(keys) }
    }

    fn read(&mut self, low: u64, high: u64) -> Result<(), Fault> {
        let pairs = again(|| self.pass.listed(low, high, MOST_LISTED))?;
        if pairs.len() == MOST_LISTED {
            self.unread = pairs.last().filter(|last| last.0 < high).map(|last| (last.0 + 1, high));
        }
        self.chunk = pairs.into_iter();
        Ok(())
    }
}

impl Iterator for Range<'_> {
    type Item = Result<(u64, u128), Fault>;

    fn next(&mut self) -> Option<Self::Item> {
        if let Some(pair) = self.chunk.next() {
            return Some(Ok(pair));
        }
        let (low, high) = self.unread.take()?;
        match self.read(low, high) {
            Ok(()) => self.chunk.next().map(Ok),
            Err(fault) => Some(Err(fault)),
        }
    }
}

impl FusedIterator for Range<'_> {}

impl<'a> IntoIterator for &'a mut Pass {
    type Item = Result<(u64, u128), Fault>;
    type IntoIter = Range<'a>;

    fn into_iter(self) -> Range<'a> {
        self.range(..)
    }
}

/// The least and the greatest of these keys, if there are any.
pub(crate) fn ends(keys: impl RangeBounds<u64>) -> Option<(u64, u64)> {
    let low = match keys.start_bound() {
        Bound::Included(&key) => key,
        Bound::Excluded(&key) => key.checked_add(1)?,
        Bound::Unbounded => 0,
    };
    let high = match keys.end_bound() {
        Bound::Included(&key) => key,
        Bound::Excluded(&key) => key.checked_sub(1)?,
        Bound::Unbounded => u64::MAX,
    };
    (low <= high).then_some((low, high))
}
