//! The name of a session.

use std::fmt;

/// The name of a session: any ten bytes. Sessions are ordered by their bytes.
#[derive(Clone, Copy, PartialEq, Eq, PartialOrd, Ord, Hash)]
pub struct Session(pub [u8; 10]);

impl Session {
    /// Returns the session with this name, padded with spaces as on the command line of `mold`. If the name has more
    /// than ten bytes, there is none.
    pub const fn padded(name: &str) -> Option<Self> {
        let (name, mut padded) = (name.as_bytes(), [b' '; 10]);
        if name.len() > padded.len() {
            return None;
        }
        let mut i = 0;
        while i < name.len() {
            padded[i] = name[i];
            i += 1;
        }
        Some(Self(padded))
    }
}

impl fmt::Debug for Session {
    fn fmt(&self, f: &mut fmt::Formatter<'_>) -> fmt::Result {
        write!(f, "Session(\"{}\")", self.0.escape_ascii())
    }
}
