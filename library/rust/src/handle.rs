//! The owner of a handle of the library.

use crate::error::{done, Error};
use crate::sys;
use crate::version;
use std::fmt;

/// A handle of any kind, which is freed when it is dropped.
///
/// Moving it in Rust moves the handle, because nothing uses the old place again.
///
/// A call that takes a `const` handle of `mold.h` gets `as_ptr`, and each other call `as_mut_ptr`. So two calls on a
/// handle never run at the same time, and slices of its memory, which borrow the handle, end before a call changes it.
pub(crate) struct Handle(sys::Handle);

impl Handle {
    /// Makes a handle. `fill` passes the empty handle to a call that fills it, and returns the code and the number of
    /// that call. Panics if the linked library has another version than this crate.
    pub(crate) fn filled(fill: impl FnOnce(*mut sys::Handle) -> (u32, u64)) -> Result<Self, Error> {
        version::check();
        let mut made = Self(sys::Handle { at: std::ptr::null_mut(), live: false });
        let (code, number) = fill(made.as_mut_ptr());
        done(code, number)?;
        Ok(made)
    }

    pub(crate) fn as_ptr(&self) -> *const sys::Handle {
        &self.0
    }

    pub(crate) fn as_mut_ptr(&mut self) -> *mut sys::Handle {
        &mut self.0
    }
}

// SAFETY: The library has no thread, no thread-local value and no mutable global. A handle owns its memory. So it may
// be made in one thread and used in another. It is not `Sync`: only one call at a time may run on a handle, even if
// all calls only read it.
unsafe impl Send for Handle {}

impl Drop for Handle {
    fn drop(&mut self) {
        // SAFETY: Only calls of the library wrote the handle, or it is empty. Nothing uses it later.
        unsafe { sys::mold_free(self.as_mut_ptr().cast()) }
    }
}

impl fmt::Debug for Handle {
    fn fmt(&self, f: &mut fmt::Formatter<'_>) -> fmt::Result {
        f.debug_struct("Handle").finish_non_exhaustive()
    }
}
