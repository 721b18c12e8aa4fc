//! A listener: two lines and a server's responses, delivered in order.

use crate::batch::Batch;
use crate::delivered::Delivered;
use crate::error::{done, Error};
use crate::handle::Handle;
use crate::messages::Messages;
use crate::origin::Origin;
use crate::ranges::Ranges;
use crate::report::Report;
use crate::request::Request;
use crate::session::Session;
use crate::sys;
use crate::taken::Taken;

/// Delivers the messages of a session in order, from two lines and from the responses of a server.
///
/// The *batch* has the messages that were delivered since the last [`clear`](Self::clear). It is in the listener's
/// memory, and grows until it is cleared. Its messages are slices that borrow the listener: read them before the next
/// datagram is taken.
///
/// ```
/// use mold::{Listener, Origin, Session};
///
/// let mut listener = Listener::new(Session(*b"SESSION001"), 1, 1024)?;
/// let taken = listener.take(Origin::LineA, b"SESSION001\0\0\0\0\0\0\0\x01\0\x01\0\x02AB")?;
/// assert_eq!(taken.delivered, 1);
/// assert!(listener.batch().eq([(1, &b"AB"[..])]));
/// listener.clear();
/// # Ok::<(), mold::Error>(())
/// ```
///
/// A message cannot be used after the next datagram was taken:
///
/// ```compile_fail,E0502
/// # use mold::{Listener, Origin, Session};
/// # let mut listener = Listener::new(Session(*b"SESSION001"), 1, 1024)?;
/// let message = listener.message(0);
/// listener.take(Origin::LineB, b"SESSION001\0\0\0\0\0\0\0\x02\0\0")?;
/// assert_eq!(message, None);
/// # Ok::<(), mold::Error>(())
/// ```
///
/// Nor can it be used after the listener was dropped:
///
/// ```compile_fail,E0505
/// # use mold::{Listener, Session};
/// # let listener = Listener::new(Session(*b"SESSION001"), 1, 1024)?;
/// let message = listener.message(0);
/// drop(listener);
/// assert_eq!(message, None);
/// # Ok::<(), mold::Error>(())
/// ```
///
/// A listener may be sent to another thread, but it is not `Sync`: two threads cannot call it at the same time.
///
/// ```compile_fail,E0277
/// fn share<T: Sync>() {}
/// share::<mold::Listener>();
/// ```
#[derive(Debug)]
pub struct Listener(pub(crate) Handle);

impl Listener {
    /// Makes a listener for a session. It delivers the messages from number `next` on. A message above a gap is stored
    /// if its number is less than N + `window`, where N is the number of the next message to deliver.
    ///
    /// # Errors
    ///
    /// [`NextZero`](Error::NextZero), if `next` is 0. [`Window`](Error::Window), if `window` is not 1 to 1,048,576.
    /// [`Memory`](Error::Memory).
    pub fn new(session: Session, next: u64, window: u32) -> Result<Self, Error> {
        // SAFETY: The handle is empty.
        Handle::filled(|empty| (unsafe { sys::mold_listener_new(empty, &session.0, next, window) }, 0)).map(Self)
    }

    /// Makes a listener as [`new`](Self::new) does, whose store has room for `store` bytes: those of the stored messages
    /// and of their length fields, 2 for each message. If the messages of a datagram that begins above a gap have no
    /// room, none of them is stored. A datagram that has the message N needs no room. If `store` is 0, the store is not
    /// limited.
    ///
    /// # Errors
    ///
    /// Those of [`new`](Self::new), and [`Options`](Error::Options), if `store` is 1 to 65,506.
    pub fn bounded(session: Session, next: u64, window: u32, store: u64) -> Result<Self, Error> {
        // SAFETY: The handle is empty.
        Handle::filled(|empty| (unsafe { sys::mold_listener_bounded(empty, &session.0, next, window, store) }, 0))
            .map(Self)
    }

    /// Takes a datagram of a line, or a server's response. Messages that are next in order join the batch: those of
    /// the datagram, and then stored ones. Messages above a gap are stored. Messages that were delivered or stored
    /// before are ignored.
    ///
    /// # Errors
    ///
    /// After a refusal the listener is as before, except that the line's report counts the datagram as refused, unless
    /// the error is [`Memory`](Error::Memory).
    ///
    /// | Error | When |
    /// |---|---|
    /// | [`Line`](Error::Line) | the origin is a server other than server 0 |
    /// | [`Short`](Error::Short), [`BlockCut`](Error::BlockCut), [`Trailing`](Error::Trailing) | the bytes do not encode a packet |
    /// | [`WrongSession`](Error::WrongSession) | the packet belongs to another session |
    /// | [`SequenceZero`](Error::SequenceZero) | its sequence number is 0 |
    /// | [`PastLast`](Error::PastLast) | it has a message with a number above 18446744073709551614 |
    /// | [`EndConflict`](Error::EndConflict) | it states an end of the session other than the known end |
    /// | [`EndBelow`](Error::EndBelow) | it ends the session below the greatest known top |
    /// | [`PastEnd`](Error::PastEnd) | its top is above the known end |
    /// | [`Conflict`](Error::Conflict) | one of its messages differs from the stored one |
    /// | [`Memory`](Error::Memory) | an allocation failed |
    pub fn take(&mut self, origin: Origin, datagram: &[u8]) -> Result<Taken, Error> {
        let (mut taken, line) = (sys::Taken::default(), origin.number());
        let (at, length) = (datagram.as_ptr(), datagram.len());
        // SAFETY: No slice of the batch is in use.
        let code = unsafe { sys::mold_listener_take(self.0.as_mut_ptr(), line, at, length, &mut taken) };
        done(code, taken.detail)?;
        Ok(Taken { delivered: taken.delivered, kept: taken.kept, dropped: taken.dropped })
    }

    /// Takes a datagram as [`take`](Self::take) does, but does not copy the messages that the datagram itself
    /// delivers. It returns all messages that the datagram delivers. First the batch is emptied. Then it gets the
    /// stored messages that are delivered after those of the datagram. This is the fastest way to take a datagram.
    ///
    /// Only messages that an earlier `hear` left in the batch are discarded. If it has messages of
    /// [`take`](Self::take) or [`skip`](Self::skip), read them and call [`clear`](Self::clear) before.
    ///
    /// # Errors
    ///
    /// [`Line`](Error::Line), if the origin is a server other than server 0. [`Batch`](Error::Batch), if the batch has
    /// messages of `take` or `skip`. After these two nothing has changed. Then those of [`take`](Self::take), after
    /// which the batch is empty. [`Memory`](Error::Memory) is only possible if messages have to be stored, or stored
    /// ones delivered.
    ///
    /// ```
    /// # use mold::{Listener, Origin, Session};
    /// # let mut listener = Listener::new(Session(*b"SESSION001"), 1, 1024)?;
    /// let mut received = 0;
    /// for (sequence, message) in listener.hear(Origin::LineA, b"SESSION001\0\0\0\0\0\0\0\x01\0\x01\0\x02AB")? {
    ///     assert_eq!((sequence, message), (1, &b"AB"[..]));
    ///     received += 1;
    /// }
    /// assert_eq!(received, 1);
    /// # Ok::<(), mold::Error>(())
    /// ```
    ///
    /// The messages cannot be used after the next call:
    ///
    /// ```compile_fail,E0499
    /// # use mold::{Listener, Origin, Session};
    /// # let mut listener = Listener::new(Session(*b"SESSION001"), 1, 1024)?;
    /// let delivered = listener.hear(Origin::LineA, b"SESSION001\0\0\0\0\0\0\0\x02\0\0")?;
    /// listener.clear();
    /// assert_eq!(delivered.count(), 0);
    /// # Ok::<(), mold::Error>(())
    /// ```
    ///
    /// Nor after the buffer of the datagram was written:
    ///
    /// ```compile_fail,E0506
    /// # use mold::{Listener, Origin, Session};
    /// # let mut listener = Listener::new(Session(*b"SESSION001"), 1, 1024)?;
    /// let mut buffer = *b"SESSION001\0\0\0\0\0\0\0\x02\0\0";
    /// let delivered = listener.hear(Origin::LineA, &buffer)?;
    /// buffer[0] = b'X';
    /// assert_eq!(delivered.count(), 0);
    /// # Ok::<(), mold::Error>(())
    /// ```
    pub fn hear<'a>(&'a mut self, origin: Origin, datagram: &'a [u8]) -> Result<Delivered<'a>, Error> {
        let (mut delivery, line) = (sys::Delivery::default(), origin.number());
        let (at, length) = (datagram.as_ptr(), datagram.len());
        // SAFETY: No slice of the batch is in use.
        let code = unsafe { sys::mold_listener_hear(self.0.as_mut_ptr(), line, at, length, &mut delivery) };
        done(code, delivery.detail)?;
        let (own, stored) = (delivery.own as usize, delivery.stored as usize);
        let first_stored = if own + stored == 0 { 0 } else { self.next() - stored as u64 };
        Ok(Delivered {
            own: Messages::new(&datagram[delivery.offset..], own),
            stored: Batch::new(self, first_stored, stored),
            next: first_stored - own as u64,
            kept: delivery.kept,
            dropped: delivery.dropped,
        })
    }

    /// Returns the messages of the batch with their numbers, in order.
    pub fn batch(&self) -> Batch<'_> {
        // SAFETY: The handle is only read.
        let (first, count) =
            unsafe { (sys::mold_listener_first(self.0.as_ptr()), sys::mold_listener_count(self.0.as_ptr())) };
        Batch::new(self, first, count)
    }

    /// Returns the message at an index of the batch, from 0; `None` if the batch has no message there.
    pub fn message(&self, index: usize) -> Option<&[u8]> {
        let mut message = sys::Bytes { at: std::ptr::null(), length: 0 };
        // SAFETY: The handle is only read.
        if unsafe { sys::mold_listener_message(self.0.as_ptr(), index, &mut message) } != 0 {
            return None;
        }
        // The address of an empty message may not be valid.
        if message.length == 0 {
            return Some(&[]);
        }
        // SAFETY: The bytes are valid until a call changes the listener, which the result borrows.
        Some(unsafe { std::slice::from_raw_parts(message.at, message.length) })
    }

    /// Empties the batch, and keeps its memory for later messages.
    pub fn clear(&mut self) {
        // SAFETY: No slice of the batch is in use. The call succeeds, because the handle is not empty.
        unsafe { sys::mold_listener_clear(self.0.as_mut_ptr()) };
    }

    /// Returns the request packet to send to the re-request server; `None` if no message is missing. It asks for the
    /// messages of the first gap, at most 65,534.
    pub fn wanted(&self) -> Option<[u8; Request::LENGTH]> {
        let mut request = [0; Request::LENGTH];
        // SAFETY: The handle is only read.
        unsafe { sys::mold_listener_wanted(self.0.as_ptr(), &mut request) }.then_some(request)
    }

    /// Returns the ranges of missing messages with numbers from `from` on, ascending. A message is missing if its
    /// number is below [`known`](Self::known) and it was neither delivered nor stored. If `from` is within a gap, the
    /// first range begins at `from`.
    pub fn ranges(&self, from: u64) -> Ranges<'_> {
        Ranges::new(self, from)
    }

    /// Writes the first ranges from `from` on, and returns how many.
    pub(crate) fn write_ranges(&self, from: u64, ranges: &mut [sys::Range]) -> usize {
        // SAFETY: The handle is only read.
        unsafe { sys::mold_listener_ranges(self.0.as_ptr(), from, ranges.as_mut_ptr(), ranges.len()) }
    }

    /// Gives up all messages below number `to`. They have to be missing, from [`next`](Self::next) on, and there has
    /// to be at least one: so `to` is at most one more than the last number of the first range of
    /// [`ranges`](Self::ranges). The listener goes on at `to`, and delivers the stored messages from there up to the
    /// next gap. They join the batch, which has to be empty.
    ///
    /// # Errors
    ///
    /// [`Batch`](Error::Batch), if the batch is not empty. [`NotMissing`](Error::NotMissing), if not all of these
    /// messages are missing, or there is none. [`Memory`](Error::Memory).
    pub fn skip(&mut self, to: u64) -> Result<(), Error> {
        // SAFETY: No slice of the batch is in use.
        done(unsafe { sys::mold_listener_skip(self.0.as_mut_ptr(), to) }, 0)
    }

    /// Returns the number of the next message to deliver.
    pub fn next(&self) -> u64 {
        // SAFETY: The handle is only read.
        unsafe { sys::mold_listener_next(self.0.as_ptr()) }
    }

    /// Returns the greatest known top: the greatest top of a packet that was taken, or the number at which the
    /// listener began if that is greater. All messages that are known to exist have numbers below it.
    pub fn known(&self) -> u64 {
        // SAFETY: The handle is only read.
        unsafe { sys::mold_listener_known(self.0.as_ptr()) }
    }

    /// Returns whether the end of the session is known and all messages below it were delivered.
    pub fn finished(&self) -> bool {
        // SAFETY: The handle is only read.
        unsafe { sys::mold_listener_finished(self.0.as_ptr()) }
    }

    /// Returns the report of line A or line B.
    ///
    /// # Errors
    ///
    /// [`Line`](Error::Line), if the origin is a server.
    pub fn report(&self, line: Origin) -> Result<Report, Error> {
        let mut report = sys::Report::default();
        // SAFETY: The handle is only read.
        done(unsafe { sys::mold_listener_report(self.0.as_ptr(), line.number(), &mut report) }, 0)?;
        Ok(Report { datagrams: report.datagrams, refused: report.refused, front: report.front })
    }
}
