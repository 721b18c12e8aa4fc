//! Ranges of missing messages.

use crate::listener::Listener;
use crate::sys;
use std::iter::FusedIterator;
use std::ops::RangeInclusive;

/// The number of ranges that one call of the library writes.
const AT_ONCE: usize = 16;

/// The ranges of missing messages, ascending. No two of them adjoin.
///
/// [`Listener::ranges`] returns it.
#[derive(Clone)]
pub struct Ranges<'a> {
    listener: &'a Listener,
    /// The number from which the library is asked next; `None` if it has no further range.
    from: Option<u64>,
    /// The ranges that it has written, and the indices of those that remain.
    found: [sys::Range; AT_ONCE],
    index: usize,
    end: usize,
}

impl<'a> Ranges<'a> {
    pub(crate) fn new(listener: &'a Listener, from: u64) -> Self {
        Self { listener, from: Some(from), found: [sys::Range::default(); AT_ONCE], index: 0, end: 0 }
    }

    /// Asks the library for further ranges. If it fills the array, there may be more.
    fn refill(&mut self) -> Option<()> {
        let count = self.listener.write_ranges(self.from?, &mut self.found);
        let last = self.found[..count].last()?.last;
        self.from = (count == AT_ONCE).then_some(last + 1);
        (self.index, self.end) = (0, count);
        Some(())
    }
}

impl Iterator for Ranges<'_> {
    type Item = RangeInclusive<u64>;

    fn next(&mut self) -> Option<Self::Item> {
        if self.index == self.end {
            self.refill()?;
        }
        let range = self.found[self.index];
        self.index += 1;
        Some(range.first..=range.last)
    }
}

impl FusedIterator for Ranges<'_> {}

impl std::fmt::Debug for Ranges<'_> {
    fn fmt(&self, f: &mut std::fmt::Formatter<'_>) -> std::fmt::Result {
        f.debug_list().entries(self.clone()).finish()
    }
}
