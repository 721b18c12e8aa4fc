//! The messages of a packet.

use std::iter::FusedIterator;

/// The number of bytes before a message, which are its length.
const LENGTH_BYTES: usize = 2;

/// The messages of a packet, in order. They are slices of the datagram, which is not copied.
///
/// [`Packet::messages`](crate::Packet::messages) returns it.
#[derive(Clone, Debug)]
pub struct Messages<'a> {
    /// The remaining message blocks, which the library has checked: there are `count`, and each of them is whole.
    blocks: &'a [u8],
    count: usize,
}

impl<'a> Messages<'a> {
    pub(crate) fn new(blocks: &'a [u8], count: usize) -> Self {
        Self { blocks, count }
    }
}

impl<'a> Iterator for Messages<'a> {
    type Item = &'a [u8];

    fn next(&mut self) -> Option<&'a [u8]> {
        self.count = self.count.checked_sub(1)?;
        let (length, rest) = self.blocks.split_first_chunk::<LENGTH_BYTES>()?;
        let (message, blocks) = rest.split_at(u16::from_be_bytes(*length).into());
        self.blocks = blocks;
        Some(message)
    }

    fn size_hint(&self) -> (usize, Option<usize>) {
        (self.count, Some(self.count))
    }
}

impl ExactSizeIterator for Messages<'_> {}
impl FusedIterator for Messages<'_> {}
