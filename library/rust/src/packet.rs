//! Decoded datagrams.

use crate::error::{done, Error};
use crate::messages::Messages;
use crate::session::Session;
use crate::sys;

/// The number of bytes of a packet before its message blocks.
const HEADER_BYTES: usize = 20;

/// The kinds of packets.
#[derive(Clone, Copy, Debug, PartialEq, Eq, Hash)]
pub enum Kind {
    /// 1 to 65,534 messages.
    Data,
    /// No messages. The sequence number is that of the next message.
    Heartbeat,
    /// No messages. It ends the session. The sequence number is one more than the number of messages of the session.
    End,
}

impl Kind {
    fn of(number: u32) -> Self {
        match number {
            0 => Self::Data,
            1 => Self::Heartbeat,
            _ => Self::End,
        }
    }
}

/// A decoded datagram. It borrows the datagram, and copies nothing but the header.
///
/// ```
/// let datagram = b"SESSION001\0\0\0\0\0\0\0\x07\0\x02\0\x02AB\0\0";
/// let packet = mold::Packet::decode(datagram)?;
/// assert_eq!((packet.sequence(), packet.kind()), (7, mold::Kind::Data));
/// assert!(packet.messages().eq([&b"AB"[..], b""]));
/// # Ok::<(), mold::Error>(())
/// ```
#[derive(Clone, Debug)]
pub struct Packet<'a> {
    session: Session,
    sequence: u64,
    kind: Kind,
    messages: Messages<'a>,
}

impl<'a> Packet<'a> {
    /// Decodes a datagram. If it succeeds, the bytes are the encoding of this packet and of no other.
    ///
    /// # Errors
    ///
    /// [`Short`](Error::Short), [`BlockCut`](Error::BlockCut) or [`Trailing`](Error::Trailing), if the bytes do not
    /// encode a packet.
    pub fn decode(datagram: &'a [u8]) -> Result<Self, Error> {
        let mut packet = sys::Packet::default();
        // SAFETY: Only references are passed.
        let code = unsafe { sys::mold_decode(datagram.as_ptr(), datagram.len(), &mut packet) };
        done(code, packet.detail)?;
        Ok(Self {
            session: Session(packet.session),
            sequence: packet.sequence,
            kind: Kind::of(packet.kind),
            messages: Messages::new(&datagram[HEADER_BYTES..], packet.count.into()),
        })
    }

    /// Returns the session.
    pub fn session(&self) -> Session {
        self.session
    }

    /// Returns the sequence number: that of the first message, or as [`Kind`] states.
    pub fn sequence(&self) -> u64 {
        self.sequence
    }

    /// Returns the kind of the packet.
    pub fn kind(&self) -> Kind {
        self.kind
    }

    /// Returns the messages of the packet. The number of the message at index i is the sequence number plus i. It may
    /// be above the last sequence number: a listener refuses such a packet, and `decode` does not.
    pub fn messages(&self) -> Messages<'a> {
        self.messages.clone()
    }
}
