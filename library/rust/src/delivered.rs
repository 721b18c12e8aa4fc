//! The messages that a datagram delivers without a copy.

use crate::batch::Batch;
use crate::messages::Messages;
use std::iter::FusedIterator;

/// The messages that a datagram delivers, with their sequence numbers, in order: first those of the datagram, as
/// slices of the datagram, and then stored ones, as slices of the listener's memory.
///
/// [`Listener::hear`](crate::Listener::hear) returns it.
#[derive(Clone, Debug)]
#[must_use = "each message is delivered only once"]
pub struct Delivered<'a> {
    pub(crate) own: Messages<'a>,
    pub(crate) stored: Batch<'a>,
    /// The number of the next message of `own`.
    pub(crate) next: u64,
    pub(crate) kept: u32,
    pub(crate) dropped: u32,
}

impl Delivered<'_> {
    /// Returns the number of messages of the datagram that were stored above a gap.
    pub fn kept(&self) -> u32 {
        self.kept
    }

    /// Returns the number of messages of the datagram that were dropped and must be received again: those above the
    /// window, or all new ones if the store had no room for the datagram.
    pub fn dropped(&self) -> u32 {
        self.dropped
    }
}

impl<'a> Iterator for Delivered<'a> {
    type Item = (u64, &'a [u8]);

    fn next(&mut self) -> Option<Self::Item> {
        let Some(message) = self.own.next() else {
            return self.stored.next();
        };
        let sequence = self.next;
        self.next += 1;
        Some((sequence, message))
    }

    fn size_hint(&self) -> (usize, Option<usize>) {
        let count = self.own.len() + self.stored.len();
        (count, Some(count))
    }
}

impl ExactSizeIterator for Delivered<'_> {}
impl FusedIterator for Delivered<'_> {}
