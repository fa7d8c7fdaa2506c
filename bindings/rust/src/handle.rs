//! Handles, through which this crate owns objects of the library.
use crate::raw;
use std::ffi::c_void;
use std::ptr;

/// A handle of the library. It owns an object, or nothing, and frees what it owns when it is dropped.
///
/// Only the library reads and writes its fields.
#[repr(C)]
pub struct Handle {
    at: *mut c_void,
    live: u64,
}

// SAFETY: The library keeps nothing per thread. What a handle owns is read and written only by calls with
// that handle, each of which has it by `&mut`, except for what handles share: NFAs and regexes. These are
// only read, and the counts of their owners are atomic, so any thread may create, reset and close a cache of
// a shared regex. The states of a cache are counted atomically too; all their owners belong to its handle:
// the cache, and the search in pieces and the walk that were begun over it.
unsafe impl Send for Handle {}

impl Handle {
    /// Returns a handle that owns nothing.
    ///
    /// # Panics
    ///
    /// If the processor lacks instructions that the library uses.
    pub fn closed() -> Handle {
        let is_supported = is_x86_feature_detected!("ssse3") && is_x86_feature_detected!("sse4.1");
        assert!(is_supported, "the processor lacks SSSE3 or SSE4.1, which lazydfa uses");
        Handle { at: ptr::null_mut(), live: 0 }
    }
}

impl Drop for Handle {
    fn drop(&mut self) {
        // If it owns nothing, this does nothing.
        raw::lazydfa_close(self);
    }
}
