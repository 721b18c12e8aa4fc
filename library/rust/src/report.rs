//! What was received on a line.

/// What was received on a line. Both counts stop at 18446744073709551615.
#[derive(Clone, Copy, Debug, Default, PartialEq, Eq, Hash)]
pub struct Report {
    /// The number of datagrams that were taken.
    pub datagrams: u64,
    /// The number of datagrams that were refused, except with [`Error::Memory`](crate::Error::Memory) or
    /// [`Error::Batch`](crate::Error::Batch).
    pub refused: u64,
    /// The greatest top of a packet that was taken, or the first number of the listener if that is greater. A packet's
    /// top is its sequence number plus its number of messages. The lag of a line is
    /// [`Listener::known`](crate::Listener::known) minus this number.
    pub front: u64,
}
