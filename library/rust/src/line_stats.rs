//! What a line brought to a repairer.

use crate::sys;
use std::time::Duration;

/// What a line brought to a repairer. The counts stop at 18446744073709551615.
#[derive(Clone, Debug, PartialEq, Eq)]
#[non_exhaustive]
pub struct LineStats {
    /// The number of datagrams that were taken.
    pub datagrams: u64,
    /// The number of these datagrams of which a message was delivered or stored.
    pub first: u64,
    /// The number of the others.
    pub again: u64,
    /// The number of datagrams that were refused, except with [`Error::Memory`](crate::Error::Memory).
    pub refused: u64,
    /// The greatest delay after the other line, of the last 1,024 datagrams that both lines brought. It is 0 if the
    /// option `patience` is not 0.
    pub late: Duration,
}

impl LineStats {
    pub(crate) fn of(stats: &sys::LineStats) -> Self {
        Self {
            datagrams: stats.datagrams,
            first: stats.first,
            again: stats.again,
            refused: stats.refused,
            late: Duration::from_nanos(stats.late),
        }
    }
}
