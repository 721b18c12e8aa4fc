//! A publisher: messages in datagrams, and their journal.

use crate::error::{done, Error};
use crate::handle::Handle;
use crate::server::Server;
use crate::session::Session;
use crate::sys;
use crate::vector::vector_of;
use crate::written::{written, written_if_present};

/// Sends the messages of a session in datagrams, and keeps them in a journal.
///
/// ```
/// use mold::{Publisher, Session};
///
/// let mut publisher = Publisher::new(Session(*b"SESSION001"), 1400)?;
/// assert_eq!(publisher.publish(b"AB")?, 1);
/// let mut buffer = [0; 1400];
/// while let Some(datagram) = publisher.datagram(&mut buffer)? {
///     assert_eq!(datagram, b"SESSION001\0\0\0\0\0\0\0\x01\0\x01\0\x02AB");
/// }
/// # Ok::<(), mold::Error>(())
/// ```
#[derive(Debug)]
pub struct Publisher(Server);

impl Publisher {
    /// Makes a publisher of a session without messages. A datagram has at most `limit` bytes, and a message at most
    /// `limit` - 22 bytes.
    ///
    /// # Errors
    ///
    /// [`Limit`](Error::Limit), if `limit` is not 64 to 65,507. [`Memory`](Error::Memory).
    pub fn new(session: Session, limit: usize) -> Result<Self, Error> {
        // SAFETY: The handle is empty.
        let made = Handle::filled(|empty| (unsafe { sys::mold_publisher_new(empty, &session.0, limit) }, 0))?;
        Ok(Self(Server(made)))
    }

    /// Publishes a message, and returns its sequence number. The journal keeps its bytes.
    ///
    /// # Errors
    ///
    /// [`Closed`](Error::Closed), if the session is closed. [`TooLong`](Error::TooLong), if the message is longer than
    /// the limit allows. [`Numbers`](Error::Numbers), if 18446744073709551614 messages were published.
    /// [`Memory`](Error::Memory).
    pub fn publish(&mut self, message: &[u8]) -> Result<u64, Error> {
        let (mut number, at, length) = (0, message.as_ptr(), message.len());
        // SAFETY: Only references are passed.
        let code = unsafe { sys::mold_publisher_publish(self.as_mut_ptr(), at, length, &mut number) };
        done(code, number)?;
        Ok(number)
    }

    /// Returns whether the unsent messages do not all fit in one datagram. A message is unsent until
    /// [`datagram`](Self::datagram) has written it. To fill datagrams, call `datagram` after each message as long as
    /// this method returns true. To send without delay, call it once after each message.
    pub fn is_full(&self) -> bool {
        // SAFETY: The handle is only read.
        unsafe { sys::mold_publisher_is_full(self.as_ptr()) }
    }

    /// Writes a datagram of the unsent messages, in order and as many as fit, to the start of a buffer. `None` if no
    /// message is unsent.
    ///
    /// # Errors
    ///
    /// [`Room`](Error::Room), if the buffer is shorter than the limit.
    pub fn datagram<'b>(&mut self, buffer: &'b mut [u8]) -> Result<Option<&'b [u8]>, Error> {
        let (mut size, at, room) = (0, buffer.as_mut_ptr(), buffer.len());
        // SAFETY: Only references are passed.
        let code = unsafe { sys::mold_publisher_datagram(self.as_mut_ptr(), at, room, &mut size) };
        written_if_present(code, size, buffer)
    }

    /// Writes a heartbeat to the start of a buffer. Its number is that of the first unsent message. `None` if the
    /// session is closed.
    ///
    /// # Errors
    ///
    /// [`Room`](Error::Room), if the buffer is shorter than the limit.
    pub fn heartbeat<'b>(&self, buffer: &'b mut [u8]) -> Result<Option<&'b [u8]>, Error> {
        let (mut size, at, room) = (0, buffer.as_mut_ptr(), buffer.len());
        // SAFETY: The handle is only read.
        let code = unsafe { sys::mold_publisher_heartbeat(self.as_ptr(), at, room, &mut size) };
        written_if_present(code, size, buffer)
    }

    /// Closes the session: no more messages can be published. Closing it again succeeds and changes nothing.
    ///
    /// # Errors
    ///
    /// [`Unsent`](Error::Unsent), if messages are unsent.
    pub fn close(&mut self) -> Result<(), Error> {
        let mut number = 0;
        // SAFETY: Only references are passed.
        let code = unsafe { sys::mold_publisher_close(self.as_mut_ptr(), &mut number) };
        done(code, number)
    }

    /// Writes an end packet to the start of a buffer. Its number is one more than the number of messages. `None` if
    /// the session is not closed.
    ///
    /// # Errors
    ///
    /// [`Room`](Error::Room), if the buffer is shorter than the limit.
    pub fn end<'b>(&self, buffer: &'b mut [u8]) -> Result<Option<&'b [u8]>, Error> {
        let (mut size, at, room) = (0, buffer.as_mut_ptr(), buffer.len());
        // SAFETY: The handle is only read.
        let code = unsafe { sys::mold_publisher_end(self.as_ptr(), at, room, &mut size) };
        written_if_present(code, size, buffer)
    }

    /// Writes the journal to the start of a buffer, as a journal file of version 2, which `mold serve` and
    /// [`Server::new`] read. Its length is 27 bytes, and for each message 2 bytes and the message's bytes.
    ///
    /// # Errors
    ///
    /// [`Room`](Error::Room), if the buffer is too small. The number is then the length of the journal.
    pub fn save<'b>(&self, buffer: &'b mut [u8]) -> Result<&'b [u8], Error> {
        let (mut size, at, room) = (0, buffer.as_mut_ptr(), buffer.len());
        // SAFETY: The handle is only read.
        let code = unsafe { sys::mold_publisher_save(self.as_ptr(), at, room, &mut size) };
        written(code, size, buffer)
    }

    /// Returns the bytes that [`save`](Self::save) writes, in a new vector.
    ///
    /// # Errors
    ///
    /// [`Memory`](Error::Memory).
    pub fn journal(&self) -> Result<Vec<u8>, Error> {
        let mut journal = Vec::new();
        if let Err(Error::Room { needed }) = self.save(&mut journal) {
            journal = vector_of(needed as usize)?;
        }
        self.save(&mut journal)?;
        Ok(journal)
    }

    /// Makes a publisher that continues the session of a journal file of version 3, from all bytes of the file. All
    /// messages of the file count as sent. It also returns the offset of the file's shut gate, or of its closing record.
    ///
    /// # Errors
    ///
    /// | Error | When |
    /// |---|---|
    /// | [`Limit`](Error::Limit) | `limit` is not 64 to 65,507 |
    /// | [`FileShort`](Error::FileShort) | the bytes end before the messages begin |
    /// | [`BadMagic`](Error::BadMagic) | the bytes are not a journal of version 3 |
    /// | [`Numbers`](Error::Numbers) | there are more messages than sequence numbers |
    /// | [`TooLong`](Error::TooLong) | a message is longer than the limit allows |
    /// | [`Damaged`](Error::Damaged) | a record is damaged |
    /// | [`Memory`](Error::Memory) | an allocation failed |
    pub fn resume(limit: usize, journal: &[u8]) -> Result<(Self, u64), Error> {
        let (mut number, at, length) = (0, journal.as_ptr(), journal.len());
        let made = Handle::filled(|empty| {
            // SAFETY: The handle is empty.
            let code = unsafe { sys::mold_publisher_resume(empty, limit, at, length, &mut number) };
            (code, number)
        })?;
        Ok((Self(Server(made)), number))
    }

    /// Writes the journal file of this session without messages, of version 3, to the start of a buffer. It has 19
    /// bytes: a head and a shut gate. `mold.h` states how a program creates and appends to the file.
    ///
    /// # Errors
    ///
    /// [`Room`](Error::Room), if the buffer is too small.
    pub fn journal_head<'b>(&self, buffer: &'b mut [u8]) -> Result<&'b [u8], Error> {
        let (mut size, at, room) = (0, buffer.as_mut_ptr(), buffer.len());
        // SAFETY: The handle is only read.
        let code = unsafe { sys::mold_journal_head(self.as_ptr(), at, room, &mut size) };
        written(code, size, buffer)
    }

    /// Writes the records of the messages from number `from` on to the start of a buffer, and what follows them in the
    /// file: a shut gate, or the closing record if the session is closed. `mold.h` states how a program writes them to
    /// the file. `None` if `from` is 0, or above the number of the next message.
    ///
    /// # Errors
    ///
    /// [`Room`](Error::Room), if the buffer is too small. The number is then that of the bytes.
    pub fn journal_records<'b>(&self, from: u64, buffer: &'b mut [u8]) -> Result<Option<&'b [u8]>, Error> {
        let (mut size, at, room) = (0, buffer.as_mut_ptr(), buffer.len());
        // SAFETY: The handle is only read.
        let code = unsafe { sys::mold_journal_records(self.as_ptr(), from, at, room, &mut size) };
        written_if_present(code, size, buffer)
    }

    /// Lets the publisher respond to requests too, through [`server`](Self::server). No response has an unsent message.
    /// A request gets at most `burst` responses, each of at most as many bytes as the publisher's limit.
    ///
    /// # Errors
    ///
    /// [`Broken`](Error::Broken), if the publisher responds to requests already. [`Burst`](Error::Burst), if `burst`
    /// is not 1 to 64. [`Memory`](Error::Memory).
    pub fn serve(&mut self, burst: u16) -> Result<(), Error> {
        // SAFETY: Only references are passed.
        done(unsafe { sys::mold_server_from_publisher(self.as_mut_ptr(), burst) }, 0)
    }

    /// Returns this publisher as a server. Unless [`serve`](Self::serve) succeeded before, the methods of the server
    /// return [`Broken`](Error::Broken).
    pub fn server(&self) -> &Server {
        &self.0
    }

    fn as_ptr(&self) -> *const sys::Handle {
        self.0 .0.as_ptr()
    }

    fn as_mut_ptr(&mut self) -> *mut sys::Handle {
        self.0 .0.as_mut_ptr()
    }
}
