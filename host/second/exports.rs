//! The C calls: what is lent as an address and a length, and behind it, by host/second/generate, each call of crate rdram.
use std::slice::{from_raw_parts, from_raw_parts_mut};

/// A buffer that C lends to be read. One of length 0 may have any address.
unsafe fn lent<'a>(at: *const u8, len: usize) -> &'a [u8] {
    if len == 0 {
        return &[];
    }
    from_raw_parts(at, len)
}

/// A buffer that C lends to be written.
unsafe fn lent_mut<'a>(at: *mut u8, len: usize) -> &'a mut [u8] {
    if len == 0 {
        return &mut [];
    }
    from_raw_parts_mut(at, len)
}
