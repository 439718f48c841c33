//! The library through its C interface, as far as it is measured.
use avsplus_sys as sys;
pub use avsplus_sys::{Answer, Bin, Context, Started, State, AVSPLUS_NO_BIT as NO_BIT};

/// Why a bin or a start is refused, and of PAYLOAD OUT how many bits were missing, else 0.
#[derive(Clone, Copy, Debug, PartialEq, Eq)]
pub struct Unread {
    pub status: u32,
    pub missing: u32,
}

pub fn file(stream: &[u8], rows: &mut [u32]) -> Answer {
    // SAFETY: both slices are lent with their own lengths, and the unique one overlaps nothing.
    unsafe { sys::avsplus_file(stream.as_ptr(), stream.len(), rows.as_mut_ptr(), rows.len()) }
}

pub fn next_start_code(stream: &[u8], from: usize) -> usize {
    // SAFETY: the slice is lent with its own length; any `from` is allowed.
    unsafe { sys::avsplus_next_start_code(stream.as_ptr(), stream.len(), from) }
}

pub fn remove_escapes(payload: &[u8], output: &mut [u8]) -> Answer {
    // SAFETY: both slices are lent with their own lengths, and the unique one overlaps nothing.
    unsafe { sys::avsplus_remove_escapes(payload.as_ptr(), payload.len(), output.as_mut_ptr(), output.len()) }
}

pub fn start(bytes: &[u8], bits: usize, state: State) -> Started {
    // SAFETY: the slice is lent with its own length; any bit count and state are allowed.
    unsafe { sys::avsplus_start(bytes.as_ptr(), bytes.len(), bits, state) }
}

#[inline(always)]
pub fn decode(bytes: &[u8], bits: usize, state: State, context: Context) -> Bin {
    // SAFETY: the slice is lent with its own length; any bit count, state and context are allowed.
    unsafe { sys::avsplus_decode(bytes.as_ptr(), bytes.len(), bits, state, context) }
}
