//! The only unsafe code: every call lends its slices as pointer and length, and keeps nothing of them. No call but that for the
//! version is made of a library with another interface, whose structs may be others.

use std::sync::atomic::{AtomicBool, Ordering};

use avsplus_sys::{self as sys, Answer, Bin, Context, Golomb, PairBin, Part, PlainBin, SignedNumber, Started, State};

use crate::refused::{same_interface, Refused};

/// Set once the library's version was seen to be this crate's: no later call asks again.
static AGREED: AtomicBool = AtomicBool::new(false);

/// The library has the interface that this crate was written for.
fn agreed() -> Result<(), Refused> {
    if !AGREED.load(Ordering::Relaxed) {
        same_interface(version())?;
        AGREED.store(true, Ordering::Relaxed);
    }
    Ok(())
}

pub(crate) fn version() -> u32 {
    // SAFETY: nothing is lent.
    unsafe { sys::avsplus_version() }
}

pub(crate) fn check(stream: &[u8]) -> Result<Answer, Refused> {
    agreed()?;
    // SAFETY: the pointer comes with its slice's own length.
    Ok(unsafe { sys::avsplus_check(stream.as_ptr(), stream.len()) })
}

pub(crate) fn file(stream: &[u8], rows: &mut [u32]) -> Result<Answer, Refused> {
    agreed()?;
    // SAFETY: each pointer comes with its slice's own length, and `rows` is borrowed alone.
    Ok(unsafe { sys::avsplus_file(stream.as_ptr(), stream.len(), rows.as_mut_ptr(), rows.len()) })
}

pub(crate) fn row_exists(stream: &[u8], rows: &[u32], i: usize) -> Result<bool, Refused> {
    agreed()?;
    // SAFETY: each pointer comes with its slice's own length.
    Ok(unsafe { sys::avsplus_row_exists(stream.as_ptr(), stream.len(), rows.as_ptr(), rows.len(), i) })
}

pub(crate) fn row_body(stream: &[u8], rows: &[u32], i: usize) -> Result<Part, Refused> {
    agreed()?;
    // SAFETY: each pointer comes with its slice's own length.
    Ok(unsafe { sys::avsplus_row_body(stream.as_ptr(), stream.len(), rows.as_ptr(), rows.len(), i) })
}

pub(crate) fn group(stream: &[u8], g: usize, numbers: &mut [u64]) -> Result<Answer, Refused> {
    agreed()?;
    // SAFETY: each pointer comes with its slice's own length, and `numbers` is borrowed alone.
    Ok(unsafe { sys::avsplus_group(stream.as_ptr(), stream.len(), g, numbers.as_mut_ptr(), numbers.len()) })
}

pub(crate) fn sequence_header(body: &[u8], numbers: &mut [u64]) -> Result<Answer, Refused> {
    agreed()?;
    // SAFETY: each pointer comes with its slice's own length, and `numbers` is borrowed alone.
    Ok(unsafe { sys::avsplus_sequence_header(body.as_ptr(), body.len(), numbers.as_mut_ptr(), numbers.len()) })
}

pub(crate) fn extension(body: &[u8], in_head: bool, numbers: &mut [u64]) -> Result<Answer, Refused> {
    agreed()?;
    // SAFETY: each pointer comes with its slice's own length, and `numbers` is borrowed alone.
    Ok(unsafe { sys::avsplus_extension(body.as_ptr(), body.len(), in_head, numbers.as_mut_ptr(), numbers.len()) })
}

pub(crate) fn frame_rate(code: u32, numbers: &mut [u64]) -> Result<Answer, Refused> {
    agreed()?;
    // SAFETY: the pointer comes with its slice's own length.
    Ok(unsafe { sys::avsplus_frame_rate(code, numbers.as_mut_ptr(), numbers.len()) })
}

pub(crate) fn display_ratio(aspect: u32, numbers: &mut [u64]) -> Result<Answer, Refused> {
    agreed()?;
    // SAFETY: the pointer comes with its slice's own length.
    Ok(unsafe { sys::avsplus_display_ratio(aspect, numbers.as_mut_ptr(), numbers.len()) })
}

pub(crate) fn remove_escapes(payload: &[u8], output: &mut [u8]) -> Result<Answer, Refused> {
    agreed()?;
    // SAFETY: each pointer comes with its slice's own length, and `output` is borrowed alone.
    Ok(unsafe { sys::avsplus_remove_escapes(payload.as_ptr(), payload.len(), output.as_mut_ptr(), output.len()) })
}

pub(crate) fn unsigned_golomb(bytes: &[u8], bits: usize, place: usize) -> Result<Golomb, Refused> {
    agreed()?;
    // SAFETY: the pointer comes with its slice's own length.
    Ok(unsafe { sys::avsplus_unsigned_golomb(bytes.as_ptr(), bytes.len(), bits, place) })
}

pub(crate) fn signed_golomb(bytes: &[u8], bits: usize, place: usize) -> Result<SignedNumber, Refused> {
    agreed()?;
    // SAFETY: the pointer comes with its slice's own length.
    Ok(unsafe { sys::avsplus_signed_golomb(bytes.as_ptr(), bytes.len(), bits, place) })
}

pub(crate) fn start(bytes: &[u8], bits: usize, state: State) -> Result<Started, Refused> {
    agreed()?;
    // SAFETY: the pointer comes with its slice's own length.
    Ok(unsafe { sys::avsplus_start(bytes.as_ptr(), bytes.len(), bits, state) })
}

pub(crate) fn decode(bytes: &[u8], bits: usize, state: State, context: Context) -> Result<Bin, Refused> {
    agreed()?;
    // SAFETY: the pointer comes with its slice's own length.
    Ok(unsafe { sys::avsplus_decode(bytes.as_ptr(), bytes.len(), bits, state, context) })
}

pub(crate) fn decode_pair(
    bytes: &[u8],
    bits: usize,
    state: State,
    first: Context,
    second: Context,
) -> Result<PairBin, Refused> {
    agreed()?;
    // SAFETY: the pointer comes with its slice's own length.
    Ok(unsafe { sys::avsplus_decode_pair(bytes.as_ptr(), bytes.len(), bits, state, first, second) })
}

pub(crate) fn bypass(bytes: &[u8], bits: usize, state: State) -> Result<PlainBin, Refused> {
    agreed()?;
    // SAFETY: the pointer comes with its slice's own length.
    Ok(unsafe { sys::avsplus_bypass(bytes.as_ptr(), bytes.len(), bits, state) })
}

pub(crate) fn stuffing(bytes: &[u8], bits: usize, state: State) -> Result<PlainBin, Refused> {
    agreed()?;
    // SAFETY: the pointer comes with its slice's own length.
    Ok(unsafe { sys::avsplus_stuffing(bytes.as_ptr(), bytes.len(), bits, state) })
}

pub(crate) fn next_lg(w: u32, lg: u32) -> Result<u32, Refused> {
    agreed()?;
    // SAFETY: nothing is lent.
    Ok(unsafe { sys::avsplus_next_lg(w, lg) })
}

pub(crate) fn next_start_code(stream: &[u8], from: usize) -> Result<usize, Refused> {
    agreed()?;
    // SAFETY: the pointer comes with its slice's own length.
    Ok(unsafe { sys::avsplus_next_start_code(stream.as_ptr(), stream.len(), from) })
}

#[cfg(test)]
pub(crate) fn fresh_context() -> Result<Context, Refused> {
    agreed()?;
    // SAFETY: nothing is lent.
    Ok(unsafe { sys::avsplus_fresh_context() })
}

#[cfg(test)]
pub(crate) fn kind(code: u8) -> Result<u32, Refused> {
    agreed()?;
    // SAFETY: nothing is lent.
    Ok(unsafe { sys::avsplus_kind(code) })
}
