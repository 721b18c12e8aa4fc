//! A writer of packets.

use crate::error::{done, Error};
use crate::session::Session;
use crate::sys;

/// Writes a packet into a buffer of the caller. The length of the buffer is the greatest length of a packet.
///
/// ```
/// let mut buffer = [0; 64];
/// let mut packer = mold::Packer::new(&mut buffer);
/// packer.start(mold::Session(*b"SESSION001"), 7)?;
/// packer.add(b"AB")?;
/// assert_eq!(packer.packet(), b"SESSION001\0\0\0\0\0\0\0\x07\0\x01\0\x02AB");
/// # Ok::<(), mold::Error>(())
/// ```
#[derive(Debug)]
pub struct Packer<'a> {
    buffer: &'a mut [u8],
    used: usize,
    count: u16,
    open: bool,
}

impl<'a> Packer<'a> {
    /// Makes a packer that has begun no packet.
    pub fn new(buffer: &'a mut [u8]) -> Self {
        Self { buffer, used: 0, count: 0, open: false }
    }

    /// Begins a packet without messages, in place of the previous packet. Until a message is added, it is a heartbeat.
    ///
    /// # Errors
    ///
    /// [`Limit`](Error::Limit), if the length of the buffer is not 64 to 65,507 bytes.
    pub fn start(&mut self, session: Session, sequence: u64) -> Result<(), Error> {
        // SAFETY: The packer is valid for the call.
        self.changed(|packer| unsafe { sys::mold_packer_start(packer, &session.0, sequence) })
    }

    /// Returns whether [`add`](Self::add) would add a message of `length` bytes.
    pub fn fits(&self, length: usize) -> bool {
        let packer = sys::Packer {
            buffer: self.buffer.as_ptr().cast_mut(),
            limit: self.buffer.len(),
            used: self.used,
            count: self.count,
            open: self.open,
        };
        // SAFETY: The call writes neither the packer nor the buffer. No message is as long as 2^63 bytes.
        unsafe { sys::mold_packer_fits(&packer, length.min(self.buffer.len())) }
    }

    /// Adds a message to the packet.
    ///
    /// # Errors
    ///
    /// [`Full`](Error::Full), if no packet was begun, or the packet is an end packet, or the message does not fit.
    /// With its two bytes of length the packet would then be longer than the buffer.
    pub fn add(&mut self, message: &[u8]) -> Result<(), Error> {
        // SAFETY: The packer is valid for the call.
        self.changed(|packer| unsafe { sys::mold_packer_add(packer, message.as_ptr(), message.len()) })
    }

    /// Writes an end packet in place of the previous packet. `sequence` is one more than the number of messages of the
    /// session. No message can be added to it.
    ///
    /// # Errors
    ///
    /// [`Limit`](Error::Limit), if the length of the buffer is not 64 to 65,507 bytes.
    pub fn end(&mut self, session: Session, sequence: u64) -> Result<(), Error> {
        // SAFETY: The packer is valid for the call.
        self.changed(|packer| unsafe { sys::mold_packer_end(packer, &session.0, sequence) })
    }

    /// Returns the packet so far. It is empty if no packet was begun.
    pub fn packet(&self) -> &[u8] {
        &self.buffer[..self.used]
    }

    /// Returns the number of messages of the packet.
    pub fn count(&self) -> u16 {
        self.count
    }

    /// Passes the fields to a call that changes them.
    fn changed(&mut self, call: impl FnOnce(*mut sys::Packer) -> u32) -> Result<(), Error> {
        let mut packer = sys::Packer {
            buffer: self.buffer.as_mut_ptr(),
            limit: self.buffer.len(),
            used: self.used,
            count: self.count,
            open: self.open,
        };
        let code = call(&mut packer);
        (self.used, self.count, self.open) = (packer.used, packer.count, packer.open);
        done(code, 0)
    }
}
