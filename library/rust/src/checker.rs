//! A checker: whether captured datagrams are one whole session.

use crate::error::{done, Error};
use crate::handle::Handle;
use crate::sys;
use crate::vector::{vector_for, vector_of};
use crate::verdict::Verdict;
use std::ops::RangeInclusive;

/// Reports whether captured datagrams are one whole session.
///
/// ```
/// use mold::{Checker, Verdict};
///
/// let mut checker = Checker::new()?;
/// checker.take(b"SESSION001\0\0\0\0\0\0\0\x03\xff\xff")?;
/// checker.take(b"SESSION001\0\0\0\0\0\0\0\x02\0\x01\0\x02AB")?;
/// assert_eq!(checker.verdict()?, Verdict::Incomplete { end: Some(3), ranges: 1 });
/// assert_eq!(checker.ranges()?, [1..=1]);
/// # Ok::<(), mold::Error>(())
/// ```
#[derive(Debug)]
pub struct Checker(Handle);

impl Checker {
    /// Makes a checker that has taken no datagram.
    ///
    /// # Errors
    ///
    /// [`Memory`](Error::Memory).
    pub fn new() -> Result<Self, Error> {
        // SAFETY: The handle is empty.
        Handle::filled(|empty| (unsafe { sys::mold_checker_new(empty) }, 0)).map(Self)
    }

    /// Takes a datagram. Datagrams may come in any order. The session is that of the first datagram taken. Except for
    /// [`Memory`](Error::Memory), a datagram is refused exactly when no single session agrees with it and with all
    /// those taken before.
    ///
    /// # Errors
    ///
    /// Those of [`Listener::take`](crate::Listener::take), except [`Line`](Error::Line). `Conflict` compares with all
    /// earlier datagrams.
    pub fn take(&mut self, datagram: &[u8]) -> Result<(), Error> {
        let (mut number, at, length) = (0, datagram.as_ptr(), datagram.len());
        // SAFETY: Only references are passed.
        let code = unsafe { sys::mold_checker_take(self.0.as_mut_ptr(), at, length, &mut number) };
        done(code, number)
    }

    /// Returns whether the datagrams are one whole session.
    ///
    /// # Errors
    ///
    /// [`Memory`](Error::Memory).
    pub fn verdict(&self) -> Result<Verdict, Error> {
        let mut verdict = sys::Verdict::default();
        // SAFETY: The handle is only read.
        done(unsafe { sys::mold_checker_verdict(self.0.as_ptr(), &mut verdict) }, 0)?;
        Ok(if verdict.whole == 0 {
            Verdict::Incomplete { end: (verdict.end != 0).then_some(verdict.end), ranges: verdict.ranges }
        } else {
            Verdict::Whole { messages: verdict.messages }
        })
    }

    /// Returns the missing ranges below the greatest known top, ascending. No two of them adjoin.
    ///
    /// # Errors
    ///
    /// [`Memory`](Error::Memory).
    pub fn ranges(&self) -> Result<Vec<RangeInclusive<u64>>, Error> {
        let count = self.write_ranges(&mut [])?;
        let (mut written, mut ranges) = (vector_of::<sys::Range>(count)?, vector_for(count)?);
        self.write_ranges(&mut written)?;
        ranges.extend(written.iter().map(|range| range.first..=range.last));
        Ok(ranges)
    }

    /// Writes the first missing ranges, and returns the number of all.
    fn write_ranges(&self, ranges: &mut [sys::Range]) -> Result<usize, Error> {
        let (mut count, at, room) = (0, ranges.as_mut_ptr(), ranges.len());
        // SAFETY: The handle is only read.
        done(unsafe { sys::mold_checker_ranges(self.0.as_ptr(), at, room, &mut count) }, 0)?;
        Ok(count)
    }
}
