//! Request packets.

use crate::error::{done, Error};
use crate::session::Session;
use crate::sys;

/// A request packet: a client sends it to a re-request server.
#[derive(Clone, Copy, Debug, PartialEq, Eq, Hash)]
pub struct Request {
    /// The session.
    pub session: Session,
    /// The number of the first requested message.
    pub sequence: u64,
    /// The number of requested messages.
    pub count: u16,
}

impl Request {
    /// The length of a request packet in bytes.
    pub const LENGTH: usize = 20;

    /// Decodes a request packet. Any 20 bytes are a request packet, even with sequence number 0 or count 0.
    ///
    /// # Errors
    ///
    /// [`RequestLength`](Error::RequestLength), if the length is not 20.
    pub fn decode(bytes: &[u8]) -> Result<Self, Error> {
        let mut request = sys::Request::default();
        // SAFETY: Only references are passed.
        let code = unsafe { sys::mold_request_decode(bytes.as_ptr(), bytes.len(), &mut request) };
        done(code, bytes.len() as u64)?;
        Ok(Self { session: Session(request.session), sequence: request.sequence, count: request.count })
    }

    /// Returns the bytes of the request packet.
    pub fn encode(&self) -> [u8; Self::LENGTH] {
        let request = sys::Request { sequence: self.sequence, count: self.count, session: self.session.0 };
        let mut bytes = [0; Self::LENGTH];
        // SAFETY: Only references are passed.
        unsafe { sys::mold_request_encode(&request, &mut bytes) };
        bytes
    }
}
