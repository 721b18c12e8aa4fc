//! What a call writes to a buffer of the caller.

use crate::error::{done, is_present, Error};

/// The bytes that a call wrote to the start of a buffer. `size` is their number, or that of the refusal.
pub(crate) fn written(code: u32, size: usize, buffer: &mut [u8]) -> Result<&[u8], Error> {
    done(code, size as u64)?;
    Ok(&buffer[..size])
}

/// As `written`, for a call that may have nothing to return.
pub(crate) fn written_if_present(code: u32, size: usize, buffer: &mut [u8]) -> Result<Option<&[u8]>, Error> {
    Ok(is_present(code, size as u64)?.then_some(&buffer[..size]))
}
