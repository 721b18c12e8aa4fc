//! The messages of a batch.

use crate::listener::Listener;
use std::iter::FusedIterator;

/// The messages of a batch with their sequence numbers, in order. They are slices of the listener's memory.
///
/// [`Listener::batch`] returns it.
#[derive(Clone, Debug)]
pub struct Batch<'a> {
    listener: &'a Listener,
    /// The number of the first message of the batch, and the indices of the remaining messages.
    first: u64,
    index: usize,
    end: usize,
}

impl<'a> Batch<'a> {
    /// The batch of a listener, which has `count` messages, with numbers from `first` on.
    pub(crate) fn new(listener: &'a Listener, first: u64, count: usize) -> Self {
        Self { listener, first, index: 0, end: count }
    }
}

impl<'a> Iterator for Batch<'a> {
    type Item = (u64, &'a [u8]);

    fn next(&mut self) -> Option<Self::Item> {
        if self.index == self.end {
            return None;
        }
        let message = self.listener.message(self.index)?;
        let sequence = self.first + self.index as u64;
        self.index += 1;
        Some((sequence, message))
    }

    fn size_hint(&self) -> (usize, Option<usize>) {
        let count = self.end - self.index;
        (count, Some(count))
    }
}

impl ExactSizeIterator for Batch<'_> {}
impl FusedIterator for Batch<'_> {}
