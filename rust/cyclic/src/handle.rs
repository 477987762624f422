//! A handle of the library that is open.

use crate::sys;
use core::cell::UnsafeCell;

/// The library writes a handle in each call, also where nothing changes that a caller sees. So it stands in a cell, and calls
/// that change nothing take `&self`. A cell is not Sync: one thread at a time is in a call, and no call calls back.
pub(crate) struct OpenHandle(UnsafeCell<sys::Handle>);

impl OpenHandle {
    pub(crate) fn new(raw: sys::Handle) -> OpenHandle {
        OpenHandle(UnsafeCell::new(raw))
    }

    /// What a call of the library is given.
    pub(crate) fn raw(&self) -> *mut sys::Handle {
        self.0.get()
    }
}
