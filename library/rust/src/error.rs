//! Why a call was refused.

use crate::sys;
use std::ffi::CStr;
use std::fmt;

/// The codes of a call that succeeded, and of one that has nothing to return. The latter becomes `None`.
const DONE: u32 = 0;
const ABSENT: u32 = 18;

/// Declares `Error` and what depends on its variants. A row is a variant with its code in `mold.h`, and with the name
/// of its number, if a number goes with that refusal.
macro_rules! refusals {
    (@number) => { None };
    (@number $number:ident) => { Some($number) };
    ($($(#[$doc:meta])* $code:literal $name:ident $({ $number:ident })?,)+) => {
        /// Why a call was refused. Each variant is a code of `mold.h`, and has the same name as in C++.
        ///
        /// The documentation of a method lists the refusals that it returns, in the order in which they apply. A
        /// refused call changes nothing, except where its documentation states more.
        ///
        /// `Display` prints the library's text, which does not contain the number: see [`Error::number`].
        #[derive(Clone, Copy, Debug, PartialEq, Eq, Hash)]
        #[non_exhaustive]
        pub enum Error {
            $(
                $(#[$doc])*
                $name $({
                    /// The number that goes with the refusal.
                    $number: u64,
                })?,
            )+
            /// A later version of the library returned a code that this crate does not know.
            Unknown {
                /// The code.
                code: u32,
            },
        }

        impl Error {
            /// The refusal with a code of the library. `number` is the number that goes with it, if there is one.
            pub(crate) fn new(code: u32, number: u64) -> Self {
                match code {
                    $($code => Self::$name $({ $number: number })?,)+
                    code => Self::Unknown { code },
                }
            }

            /// Returns the number of this refusal in `mold.h`. It never changes.
            pub fn code(&self) -> u32 {
                match *self {
                    $(Self::$name { .. } => $code,)+
                    Self::Unknown { code } => code,
                }
            }

            /// Returns the number that goes with this refusal, such as the length of a datagram that is too short.
            pub fn number(&self) -> Option<u64> {
                match *self {
                    $(Self::$name { $($number)? } => refusals!(@number $($number)?),)+
                    Self::Unknown { .. } => None,
                }
            }
        }
    };
}

refusals! {
    /// A packet has at least 20 bytes, and the datagram has `length`.
    1 Short { length },
    /// A message block is cut short, after `whole` whole message blocks.
    2 BlockCut { whole },
    /// Bytes follow the end of the packet. The first of them has this `offset`.
    3 Trailing { offset },
    /// A datagram limit is 64 to 65,507 bytes.
    4 Limit,
    /// The packet has no room for the message.
    5 Full,
    /// The call cannot use this handle. The methods that may return it state when.
    6 Broken,
    /// An allocation failed. The same call may succeed later.
    7 Memory,
    /// The packet or the request is for another session.
    8 WrongSession,
    /// The sequence number is 0.
    9 SequenceZero,
    /// A message has a number above 18446744073709551614.
    10 PastLast,
    /// The packet states an end of the session other than the known `end`.
    11 EndConflict { end },
    /// The packet ends the session below `top`, the greatest known top.
    12 EndBelow { top },
    /// The packet goes past the known `end` of the session.
    13 PastEnd { end },
    /// The message with number `sequence` differs from the one received before.
    14 Conflict { sequence },
    /// There is no such line or server.
    15 Line,
    /// A listener cannot begin at sequence number 0.
    16 NextZero,
    /// A window is 1 to 1,048,576 messages.
    17 Window,
    /// The session is closed.
    19 Closed,
    /// A message of `length` bytes is too long.
    20 TooLong { length },
    /// No sequence number is left for a message.
    21 Numbers,
    /// `count` messages are not yet in a datagram.
    22 Unsent { count },
    /// The buffer has less than the `needed` bytes.
    23 Room { needed },
    /// A request has 20 bytes, and these are `length`.
    24 RequestLength { length },
    /// The request is for no message.
    25 EmptyRequest,
    /// The request begins at `next` or above, which is one more than the number of the last message.
    26 Ahead { next },
    /// A burst is 1 to 64 datagrams.
    27 Burst,
    /// `length` bytes are too few for a journal.
    28 FileShort { length },
    /// The bytes are not a journal of version 1, 2 or 3.
    29 BadMagic,
    /// The journal's `flag` is neither open nor closed.
    30 BadFlag { flag },
    /// The journal ends within the message with number `sequence`.
    31 FileCut { sequence },
    /// The journal has `count` messages, and states another number.
    32 CountDiffers { count },
    /// The journal has no whole record where the message with number `sequence` could be.
    33 Damaged { sequence },
    /// Not all messages below the number are missing.
    34 NotMissing,
    /// The batch is not empty.
    35 Batch,
    /// An option is outside its range.
    36 Options,
    /// A time is at most 4611686018427387903 nanoseconds.
    37 Time,
}

impl Error {
    /// Returns the library's text, for example `a packet has at least 20 bytes`.
    pub fn text(&self) -> &'static str {
        let mut text = sys::Bytes { at: std::ptr::null(), length: 0 };
        // SAFETY: The text is valid forever, and its length counts the zero byte at its end.
        let bytes = unsafe {
            sys::mold_terminated_text(self.code(), &mut text);
            std::slice::from_raw_parts(text.at, text.length)
        };
        CStr::from_bytes_with_nul(bytes).ok().and_then(|text| text.to_str().ok()).unwrap_or_default()
    }
}

impl fmt::Display for Error {
    fn fmt(&self, f: &mut fmt::Formatter<'_>) -> fmt::Result {
        f.pad(self.text())
    }
}

impl std::error::Error for Error {}

/// The result of a call that returned a code, and the number that goes with it.
pub(crate) fn done(code: u32, number: u64) -> Result<(), Error> {
    match code {
        DONE => Ok(()),
        code => Err(Error::new(code, number)),
    }
}

/// Whether a call had something to return.
pub(crate) fn is_present(code: u32, number: u64) -> Result<bool, Error> {
    match code {
        ABSENT => Ok(false),
        code => done(code, number).map(|()| true),
    }
}
