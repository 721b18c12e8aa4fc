//! What a repairer keeps to.

use crate::sys;
use crate::time::nanoseconds;
use std::mem::size_of;
use std::time::Duration;

/// What a repairer keeps to. Spans of time are 1 to 4611686018427387903 nanoseconds, unless another bound is given.
///
/// ```
/// let options = mold::RepairOptions { servers: 2, give_up: 3, ..Default::default() };
/// assert_eq!(options.window, 65536);
/// ```
#[derive(Clone, Debug, PartialEq, Eq)]
pub struct RepairOptions {
    /// The number of the first message to deliver, at least 1; default 1.
    pub next: u64,
    /// How long a message has to be missing before it is requested, at most a second. If it is 0, it adapts to the
    /// delays between the lines; default 0.
    pub patience: Duration,
    /// How long a request waits for a response before it is sent again; default 50 ms. Each further request for a
    /// message waits twice as long.
    pub timeout: Duration,
    /// The longest wait, at least `timeout`; default 1 s.
    pub ceiling: Duration,
    /// How long a request still waits after a response without all of its messages; default 2 ms.
    pub settle: Duration,
    /// The time after which another request may be sent, also 0; default 1 ms.
    pub interval: Duration,
    /// As that of [`Listener::new`](crate::Listener::new), 1 to 1,048,576; default 65,536.
    pub window: u32,
    /// The number of requests that may be sent at once, 1 to 65,535; default 32.
    pub bucket: u32,
    /// The greatest number of requests in flight, 1 to 4,096; default 256.
    pub places: u32,
    /// The number of re-request servers, 0 to 8; default 1.
    pub servers: u32,
    /// After how many requests in a row without a response missing messages are given up, 1 to 1,000. Without a
    /// server, each timeout counts as a request. If it is 0, never; default 0.
    pub give_up: u32,
    /// The number of delivered messages of which digests are kept, at most 1,048,576; default 0. A datagram that has
    /// one of them with other bytes is counted as a contradiction.
    pub audit: u32,
    /// As that of [`Listener::bounded`](crate::Listener::bounded), 0 or at least 65,507; default 0.
    pub store: u64,
}

impl RepairOptions {
    pub(crate) fn to_sys(&self) -> sys::RepairOptions {
        sys::RepairOptions {
            size: size_of::<sys::RepairOptions>() as u64,
            next: self.next,
            patience: nanoseconds(self.patience),
            timeout: nanoseconds(self.timeout),
            ceiling: nanoseconds(self.ceiling),
            settle: nanoseconds(self.settle),
            interval: nanoseconds(self.interval),
            window: self.window,
            bucket: self.bucket,
            places: self.places,
            servers: self.servers,
            give_up: self.give_up,
            audit: self.audit,
            store: self.store,
        }
    }
}

impl Default for RepairOptions {
    fn default() -> Self {
        let mut options = sys::RepairOptions::default();
        // SAFETY: Only a reference is passed.
        unsafe { sys::mold_repair_options_default(&mut options) };
        Self {
            next: options.next,
            patience: Duration::from_nanos(options.patience),
            timeout: Duration::from_nanos(options.timeout),
            ceiling: Duration::from_nanos(options.ceiling),
            settle: Duration::from_nanos(options.settle),
            interval: Duration::from_nanos(options.interval),
            window: options.window,
            bucket: options.bucket,
            places: options.places,
            servers: options.servers,
            give_up: options.give_up,
            audit: options.audit,
            store: options.store,
        }
    }
}
