//! Times and spans of time, which the library has in nanoseconds.

use std::time::Duration;

/// The nanoseconds of a duration. One that is too long becomes `u64::MAX`, which the library refuses.
pub(crate) fn nanoseconds(span: Duration) -> u64 {
    u64::try_from(span.as_nanos()).unwrap_or(u64::MAX)
}
