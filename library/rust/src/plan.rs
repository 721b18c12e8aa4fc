//! The remaining responses to a request.

use crate::sys;

/// The remaining responses to a request.
///
/// [`Server::plan`](crate::Server::plan) returns it. It may be kept as long as the session is served, and discarded at
/// any time.
#[derive(Clone, Debug)]
pub struct Plan(pub(crate) sys::Plan);

impl Plan {
    /// Returns the number of the next message.
    pub fn from(&self) -> u64 {
        self.0.from
    }

    /// Returns one more than the number of the last message.
    pub fn to(&self) -> u64 {
        self.0.to
    }

    /// Returns the maximum number of datagrams that remain.
    pub fn left(&self) -> u16 {
        self.0.left
    }
}
