//! Whether datagrams are one whole session.

/// Whether the datagrams that a checker took are one whole session.
#[derive(Clone, Copy, Debug, PartialEq, Eq, Hash)]
pub enum Verdict {
    /// The end is known, and each message below it was taken.
    Whole {
        /// The number of messages of the session.
        messages: u64,
    },
    /// The end is not known, or messages are missing.
    Incomplete {
        /// The number of the end packet; `None` if no end packet was taken.
        end: Option<u64>,
        /// The number of missing ranges.
        ranges: u64,
    },
}
