//! The static library, called through its C interface.

use avsplus_sys::{self as sys, Answer, Bin, Context, Golomb, PairBin, Part, PlainBin, SignedNumber, Started, State};

use crate::decoder::Decoder;

pub const LIBRARY: Decoder = Decoder {
    name: "library",
    check,
    file,
    row_exists,
    row_body,
    group,
    sequence_header,
    extension,
    frame_rate,
    display_ratio,
    remove_escapes,
    unsigned_golomb,
    signed_golomb,
    fresh_context,
    start,
    decode,
    decode_pair,
    bypass,
    stuffing,
    next_lg,
    next_start_code,
    kind,
};

/// Null for what has no elements: the interface allows it, and the safe crate lends other pointers there.
fn lent<T>(part: &[T]) -> *const T {
    if part.is_empty() {
        std::ptr::null()
    } else {
        part.as_ptr()
    }
}

/// The same for memory to be written.
fn lent_out<T>(part: &mut [T]) -> *mut T {
    if part.is_empty() {
        std::ptr::null_mut()
    } else {
        part.as_mut_ptr()
    }
}

// Below, each pointer comes with its slice's own length, and what is written is borrowed alone.

fn check(stream: &[u8]) -> Answer {
    unsafe { sys::avsplus_check(lent(stream), stream.len()) }
}

fn file(stream: &[u8], rows: &mut [u32]) -> Answer {
    unsafe { sys::avsplus_file(lent(stream), stream.len(), lent_out(rows), rows.len()) }
}

fn row_exists(stream: &[u8], rows: &[u32], i: usize) -> bool {
    unsafe { sys::avsplus_row_exists(lent(stream), stream.len(), lent(rows), rows.len(), i) }
}

fn row_body(stream: &[u8], rows: &[u32], i: usize) -> Part {
    unsafe { sys::avsplus_row_body(lent(stream), stream.len(), lent(rows), rows.len(), i) }
}

fn group(stream: &[u8], g: usize, numbers: &mut [u64]) -> Answer {
    unsafe { sys::avsplus_group(lent(stream), stream.len(), g, lent_out(numbers), numbers.len()) }
}

fn sequence_header(body: &[u8], numbers: &mut [u64]) -> Answer {
    unsafe { sys::avsplus_sequence_header(lent(body), body.len(), lent_out(numbers), numbers.len()) }
}

fn extension(body: &[u8], in_head: bool, numbers: &mut [u64]) -> Answer {
    unsafe { sys::avsplus_extension(lent(body), body.len(), in_head, lent_out(numbers), numbers.len()) }
}

fn frame_rate(code: u32, numbers: &mut [u64]) -> Answer {
    unsafe { sys::avsplus_frame_rate(code, lent_out(numbers), numbers.len()) }
}

fn display_ratio(aspect: u32, numbers: &mut [u64]) -> Answer {
    unsafe { sys::avsplus_display_ratio(aspect, lent_out(numbers), numbers.len()) }
}

fn remove_escapes(payload: &[u8], output: &mut [u8]) -> Answer {
    unsafe { sys::avsplus_remove_escapes(lent(payload), payload.len(), lent_out(output), output.len()) }
}

fn unsigned_golomb(bytes: &[u8], bits: usize, place: usize) -> Golomb {
    unsafe { sys::avsplus_unsigned_golomb(lent(bytes), bytes.len(), bits, place) }
}

fn signed_golomb(bytes: &[u8], bits: usize, place: usize) -> SignedNumber {
    unsafe { sys::avsplus_signed_golomb(lent(bytes), bytes.len(), bits, place) }
}

fn fresh_context() -> Context {
    unsafe { sys::avsplus_fresh_context() }
}

fn start(bytes: &[u8], bits: usize, state: State) -> Started {
    unsafe { sys::avsplus_start(lent(bytes), bytes.len(), bits, state) }
}

fn decode(bytes: &[u8], bits: usize, state: State, context: Context) -> Bin {
    unsafe { sys::avsplus_decode(lent(bytes), bytes.len(), bits, state, context) }
}

fn decode_pair(bytes: &[u8], bits: usize, state: State, first: Context, second: Context) -> PairBin {
    unsafe { sys::avsplus_decode_pair(lent(bytes), bytes.len(), bits, state, first, second) }
}

fn bypass(bytes: &[u8], bits: usize, state: State) -> PlainBin {
    unsafe { sys::avsplus_bypass(lent(bytes), bytes.len(), bits, state) }
}

fn stuffing(bytes: &[u8], bits: usize, state: State) -> PlainBin {
    unsafe { sys::avsplus_stuffing(lent(bytes), bytes.len(), bits, state) }
}

fn next_lg(w: u32, lg: u32) -> u32 {
    unsafe { sys::avsplus_next_lg(w, lg) }
}

fn next_start_code(stream: &[u8], from: usize) -> usize {
    unsafe { sys::avsplus_next_start_code(lent(stream), stream.len(), from) }
}

fn kind(code: u8) -> u32 {
    unsafe { sys::avsplus_kind(code) }
}
