//! Where a datagram came from.

/// Where a datagram came from.
#[derive(Clone, Copy, Debug, PartialEq, Eq, Hash)]
pub enum Origin {
    /// Line A.
    LineA,
    /// Line B.
    LineB,
    /// The response of the re-request server with this index, from 0. No line's report counts it. A listener has only
    /// server 0.
    Server(usize),
}

impl Origin {
    /// The number of the origin in `mold.h`. An index that is too great stays too great.
    pub(crate) fn number(self) -> u32 {
        match self {
            Self::LineA => 0,
            Self::LineB => 1,
            Self::Server(index) => u32::try_from(index).map_or(u32::MAX, |index| index.saturating_add(2)),
        }
    }
}
