//! The statistics of a repairer.

use crate::line_stats::LineStats;
use crate::sys;
use std::ops::RangeInclusive;
use std::time::Duration;

/// The statistics of a repairer. The counts stop at 18446744073709551615.
#[derive(Clone, Debug, PartialEq, Eq)]
#[non_exhaustive]
pub struct RepairStats {
    /// The number of the next message to deliver.
    pub next: u64,
    /// The greatest known top.
    pub known: u64,
    /// The numbers of the first gap; `None` if no message is missing.
    pub gap: Option<RangeInclusive<u64>>,
    /// The number of missing messages.
    pub missing: u64,
    /// The number of stored messages.
    pub stored: u64,
    /// How long a message now has to be missing before it is requested.
    pub patience: Duration,
    /// The number of requests that [`Repairer::poll`](crate::Repairer::poll) returned.
    pub requests: u64,
    /// The number of responses that were taken.
    pub answers: u64,
    /// The number of responses of which no message was delivered or stored.
    pub useless: u64,
    /// The number of messages that [`Repairer::lost`](crate::Repairer::lost) gave up.
    pub lost: u64,
    /// The number of datagrams that had a delivered message with other bytes, as far as the option `audit` finds them.
    pub contradictions: u64,
    /// The least number of such a message in the last of these datagrams; `None` if there was none.
    pub contradiction: Option<u64>,
    /// What line A brought.
    pub a: LineStats,
    /// What line B brought.
    pub b: LineStats,
}

impl RepairStats {
    pub(crate) fn of(stats: &sys::RepairStats) -> Self {
        Self {
            next: stats.next,
            known: stats.known,
            gap: (stats.gap_first != 0).then_some(stats.gap_first..=stats.gap_last),
            missing: stats.missing,
            stored: stats.stored,
            patience: Duration::from_nanos(stats.patience),
            requests: stats.requests,
            answers: stats.answers,
            useless: stats.useless,
            lost: stats.lost,
            contradictions: stats.contradictions,
            contradiction: (stats.contradiction != 0).then_some(stats.contradiction),
            a: LineStats::of(&stats.a),
            b: LineStats::of(&stats.b),
        }
    }
}
