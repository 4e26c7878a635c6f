//! Stands in for the crate `memchr`: the search of the C library, which uses wide registers too.

use std::ffi::{c_int, c_void};

unsafe extern "C" {
    #[link_name = "memchr"]
    fn of_c(bytes: *const c_void, byte: c_int, count: usize) -> *const c_void;
}

/// The place of the first `needle`.
#[inline]
pub fn memchr(needle: u8, haystack: &[u8]) -> Option<usize> {
    let start = haystack.as_ptr();
    // SAFETY: C's memchr reads at most that many bytes from the slice's start on.
    let found = unsafe { of_c(start.cast(), c_int::from(needle), haystack.len()) };
    (!found.is_null()).then(|| found as usize - start as usize)
}
