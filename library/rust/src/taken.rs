//! What a datagram brought.

/// What a datagram brought. Messages that were delivered or stored before are in none of the counts.
#[derive(Clone, Copy, Debug, Default, PartialEq, Eq, Hash)]
pub struct Taken {
    /// The number of messages that it added to the end of the batch: messages of the datagram and then stored ones.
    pub delivered: u32,
    /// The number of its messages that were stored above a gap.
    pub kept: u32,
    /// The number of its messages that were dropped and must be received again: those above the window, or all new ones if
    /// the store had no room for the datagram.
    pub dropped: u32,
}
