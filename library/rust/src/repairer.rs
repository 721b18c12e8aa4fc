//! A repairer: a listener that also decides when to request what, and from which server.

use crate::error::{done, is_present, Error};
use crate::handle::Handle;
use crate::listener::Listener;
use crate::origin::Origin;
use crate::repair_options::RepairOptions;
use crate::repair_stats::RepairStats;
use crate::request::Request;
use crate::session::Session;
use crate::sys;
use crate::taken::Taken;
use crate::time::nanoseconds;
use std::ops::RangeInclusive;
use std::time::Duration;

/// Takes datagrams as a [`Listener`] does, and decides when to request what, and from which server. It has no clock
/// and no socket: the caller passes the time, and sends the requests.
///
/// A loop waits for datagrams until [`deadline`](Self::deadline), and takes those that are there. It reads the batch
/// of [`listener`](Self::listener) and clears it. Then it calls [`lost`](Self::lost) and [`poll`](Self::poll), each
/// until it returns `None`.
///
/// A time is the duration since any fixed moment, such as `start.elapsed()` of an `Instant`. It is at most
/// 4611686018427387903 nanoseconds. A time below that of an earlier call counts as that of the earlier call. The time
/// of a refused call counts too, unless the error is [`Line`](Error::Line) or [`Time`](Error::Time).
///
/// ```
/// use mold::{Origin, RepairOptions, Repairer, Request, Session};
/// use std::time::Duration;
///
/// let mut repairer = Repairer::new(Session(*b"SESSION001"), &RepairOptions::default())?;
/// // A heartbeat: messages 1 and 2 exist, and are missing.
/// let mut now = Duration::ZERO;
/// repairer.take(now, Origin::LineA, b"SESSION001\0\0\0\0\0\0\0\x03\0\0")?;
/// let (server, request) = loop {
///     if let Some(due) = repairer.poll(now)? {
///         break due;
///     }
///     now = repairer.deadline(now)?.expect("messages are missing");
/// };
/// assert_eq!(server, 0);
/// assert_eq!(Request::decode(&request)?, Request { session: Session(*b"SESSION001"), sequence: 1, count: 2 });
/// # Ok::<(), mold::Error>(())
/// ```
#[derive(Debug)]
pub struct Repairer(Listener);

impl Repairer {
    /// Makes a repairer for a session. Later, only messages need memory.
    ///
    /// # Errors
    ///
    /// [`Options`](Error::Options), if an option other than `next`, `window` and `store` is outside its range.
    /// [`NextZero`](Error::NextZero), if `next` is 0. [`Window`](Error::Window), if `window` is not 1 to 1,048,576.
    /// [`Options`](Error::Options), if `store` is 1 to 65,506. [`Memory`](Error::Memory).
    pub fn new(session: Session, options: &RepairOptions) -> Result<Self, Error> {
        let options = options.to_sys();
        // SAFETY: The handle is empty.
        let made = Handle::filled(|empty| (unsafe { sys::mold_repairer_new(empty, &session.0, &options) }, 0))?;
        Ok(Self(Listener(made)))
    }

    /// Returns this repairer as a listener, for the methods that read the batch, the gaps and the reports.
    pub fn listener(&self) -> &Listener {
        &self.0
    }

    /// Takes a datagram that arrived at the time `now`, as [`Listener::take`] does. What arrived is no longer
    /// requested.
    ///
    /// # Errors
    ///
    /// [`Line`](Error::Line), if the origin is a server whose index is not below the option `servers`.
    /// [`Time`](Error::Time), if `now` is too great. Otherwise those of [`Listener::take`].
    pub fn take(&mut self, now: Duration, origin: Origin, datagram: &[u8]) -> Result<Taken, Error> {
        let (mut taken, now, line) = (sys::Taken::default(), nanoseconds(now), origin.number());
        let (at, length) = (datagram.as_ptr(), datagram.len());
        // SAFETY: No slice of the batch is in use.
        let code = unsafe { sys::mold_repairer_take(self.as_mut_ptr(), now, line, at, length, &mut taken) };
        done(code, taken.detail)?;
        Ok(Taken { delivered: taken.delivered, kept: taken.kept, dropped: taken.dropped })
    }

    /// Empties the batch, and keeps its memory for later messages.
    pub fn clear(&mut self) {
        self.0.clear();
    }

    /// Returns the next request that may be sent at the time `now`: the index of its server, and the request packet.
    /// It counts as sent. `None` if no request may be sent now. While messages are to be given up, no request may be
    /// sent: call [`lost`](Self::lost) before. The call allocates nothing.
    ///
    /// # Errors
    ///
    /// [`Time`](Error::Time), if `now` is too great.
    pub fn poll(&mut self, now: Duration) -> Result<Option<(usize, [u8; Request::LENGTH])>, Error> {
        let (mut request, mut server, now) = ([0; Request::LENGTH], 0, nanoseconds(now));
        // SAFETY: No slice of the batch is in use.
        let code = unsafe { sys::mold_repairer_poll(self.as_mut_ptr(), now, &mut request, &mut server) };
        Ok(is_present(code, 0)?.then_some((server as usize, request)))
    }

    /// Returns the time at which to call [`lost`](Self::lost) and [`poll`](Self::poll) next, if no datagram arrives
    /// before. Until then both return `None`. If both returned `None` at the time `now`, it is later than `now`. It
    /// may be early: then both return `None` again. If only a datagram can change anything, it may be above
    /// 4611686018427387903 nanoseconds. `None` if no message is missing.
    ///
    /// # Errors
    ///
    /// [`Time`](Error::Time), if `now` is too great.
    pub fn deadline(&mut self, now: Duration) -> Result<Option<Duration>, Error> {
        let (mut deadline, now) = (0, nanoseconds(now));
        // SAFETY: No slice of the batch is in use.
        let code = unsafe { sys::mold_repairer_deadline(self.as_mut_ptr(), now, &mut deadline) };
        Ok(is_present(code, 0)?.then_some(Duration::from_nanos(deadline)))
    }

    /// Gives up the first missing messages at the time `now`, if `give_up` requests for them in a row had no response,
    /// and returns their numbers. `None` if nothing is to be given up now. The repairer goes on after them, and
    /// delivers the stored messages from there up to the next gap. They join the batch, which has to be empty.
    ///
    /// # Errors
    ///
    /// [`Time`](Error::Time), if `now` is too great. [`Batch`](Error::Batch), if the batch is not empty.
    /// [`Memory`](Error::Memory).
    pub fn lost(&mut self, now: Duration) -> Result<Option<RangeInclusive<u64>>, Error> {
        let (mut lost, now) = (sys::Range::default(), nanoseconds(now));
        // SAFETY: No slice of the batch is in use.
        let code = unsafe { sys::mold_repairer_lost(self.as_mut_ptr(), now, &mut lost) };
        Ok(is_present(code, 0)?.then_some(lost.first..=lost.last))
    }

    /// Returns the statistics.
    pub fn stats(&self) -> RepairStats {
        let mut stats = sys::RepairStats::default();
        // SAFETY: The handle is only read. The call succeeds, because it holds a repairer.
        unsafe { sys::mold_repairer_stats(self.0 .0.as_ptr(), &mut stats) };
        RepairStats::of(&stats)
    }

    fn as_mut_ptr(&mut self) -> *mut sys::Handle {
        self.0 .0.as_mut_ptr()
    }
}
