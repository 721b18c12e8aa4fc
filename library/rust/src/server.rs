//! A re-request server: responses to requests, from a journal.

use crate::error::{done, Error};
use crate::handle::Handle;
use crate::plan::Plan;
use crate::sys;
use crate::written::{written, written_if_present};

/// A re-request server over the bytes of a journal file, or over a live [`Publisher`](crate::Publisher).
#[derive(Debug)]
pub struct Server(pub(crate) Handle);

impl Server {
    /// Makes a server from the bytes of a journal file of version 1, 2 or 3. Its datagrams have at most `limit` bytes,
    /// and a request gets at most `burst` responses. The server keeps a copy of the messages.
    ///
    /// # Errors
    ///
    /// | Error | When |
    /// |---|---|
    /// | [`Limit`](Error::Limit) | `limit` is not 64 to 65,507 |
    /// | [`Burst`](Error::Burst) | `burst` is not 1 to 64 |
    /// | [`FileShort`](Error::FileShort) | the bytes end before the messages begin |
    /// | [`BadMagic`](Error::BadMagic) | the bytes are not a journal |
    /// | [`BadFlag`](Error::BadFlag) | the flag is neither open nor closed |
    /// | [`Numbers`](Error::Numbers) | there are more messages than sequence numbers |
    /// | [`TooLong`](Error::TooLong) | a message is longer than the limit allows |
    /// | [`FileCut`](Error::FileCut) | the bytes end within a message |
    /// | [`CountDiffers`](Error::CountDiffers) | the journal states another number of messages than it has |
    /// | [`Damaged`](Error::Damaged) | a record is damaged |
    /// | [`Memory`](Error::Memory) | an allocation failed |
    pub fn new(limit: usize, burst: u16, journal: &[u8]) -> Result<Self, Error> {
        let (mut number, at, length) = (0, journal.as_ptr(), journal.len());
        Handle::filled(|empty| {
            // SAFETY: The handle is empty.
            let code = unsafe { sys::mold_server_new(empty, limit, burst, at, length, &mut number) };
            (code, number)
        })
        .map(Self)
    }

    /// Writes the first response to a request to the start of a buffer. For several responses use [`plan`](Self::plan)
    /// and [`datagram`](Self::datagram) instead.
    ///
    /// # Errors
    ///
    /// | Error | When |
    /// |---|---|
    /// | [`Broken`](Error::Broken) | this is a publisher that does not respond to requests |
    /// | [`Room`](Error::Room) | the buffer is shorter than the limit |
    /// | [`RequestLength`](Error::RequestLength) | the length of the request is not 20 |
    /// | [`WrongSession`](Error::WrongSession) | the request is for another session |
    /// | [`SequenceZero`](Error::SequenceZero) | its sequence number is 0 |
    /// | [`EmptyRequest`](Error::EmptyRequest) | its count is 0 |
    /// | [`Ahead`](Error::Ahead) | it begins above the last message |
    pub fn answer<'b>(&self, request: &[u8], buffer: &'b mut [u8]) -> Result<&'b [u8], Error> {
        let (mut number, asked, length) = (0, request.as_ptr(), request.len());
        let (at, room) = (buffer.as_mut_ptr(), buffer.len());
        // SAFETY: The handle is only read.
        let code = unsafe { sys::mold_server_answer(self.0.as_ptr(), asked, length, at, room, &mut number) };
        done(code, number)?;
        written(code, number as usize, buffer)
    }

    /// Plans all responses to a request.
    ///
    /// # Errors
    ///
    /// Those of [`answer`](Self::answer), except [`Room`](Error::Room).
    pub fn plan(&self, request: &[u8]) -> Result<Plan, Error> {
        let (mut plan, mut number) = (sys::Plan::default(), 0);
        let (at, length) = (request.as_ptr(), request.len());
        // SAFETY: The handle is only read.
        let code = unsafe { sys::mold_server_plan(self.0.as_ptr(), at, length, &mut plan, &mut number) };
        done(code, number)?;
        Ok(Plan(plan))
    }

    /// Writes the next datagram of a plan to the start of a buffer, and moves the plan past its messages. `None` if
    /// the plan has no remaining datagram.
    ///
    /// # Errors
    ///
    /// [`Broken`](Error::Broken), if this is a publisher that does not respond to requests, or if the plan does not
    /// fit this server: it has another session, messages that the journal does not have, or more datagrams than the
    /// burst. [`Room`](Error::Room), if the buffer is shorter than the limit.
    pub fn datagram<'b>(&self, plan: &mut Plan, buffer: &'b mut [u8]) -> Result<Option<&'b [u8]>, Error> {
        let (mut size, at, room) = (0, buffer.as_mut_ptr(), buffer.len());
        // SAFETY: The handle is only read. Only the library wrote the fields of the plan.
        let code = unsafe { sys::mold_server_datagram(self.0.as_ptr(), &mut plan.0, at, room, &mut size) };
        written_if_present(code, size, buffer)
    }
}
