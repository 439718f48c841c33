//! The plain C rivals. They answer in the library's records, so that one comparison serves all.
use crate::library::{Answer, Bin, Context, Started, State, Unread};

type File = unsafe extern "C" fn(*const u8, usize, *mut u32, usize) -> Answer;
type Next = unsafe extern "C" fn(*const u8, usize, usize) -> usize;
type Remove = unsafe extern "C" fn(*const u8, usize, *mut u8, usize) -> Answer;

extern "C" {
    fn plain_nanoseconds() -> u64;
    fn plain_file_by_three(stream: *const u8, length: usize, rows: *mut u32, words: usize) -> Answer;
    fn plain_file_bytewise(stream: *const u8, length: usize, rows: *mut u32, words: usize) -> Answer;
    fn plain_file_one_pass(stream: *const u8, length: usize, rows: *mut u32, words: usize) -> Answer;
    fn plain_next_by_three(stream: *const u8, length: usize, from: usize) -> usize;
    fn plain_next_bytewise(stream: *const u8, length: usize, from: usize) -> usize;
    fn plain_next_memmem(stream: *const u8, length: usize, from: usize) -> usize;
    fn plain_remove_escapes(raw: *const u8, length: usize, output: *mut u8, room: usize) -> Answer;
    fn plain_remove_escapes_bitwise(raw: *const u8, length: usize, output: *mut u8, room: usize) -> Answer;
    fn plain_remove_escapes_bytewise(raw: *const u8, length: usize, output: *mut u8, room: usize) -> Answer;
    fn plain_start(bytes: *const u8, length: usize, bits: usize, state: State) -> Started;
    fn plain_decode(bytes: *const u8, length: usize, bits: usize, state: State, context: Context) -> Bin;
    fn plain_decode_in_place(
        bytes: *const u8,
        length: usize,
        bits: usize,
        state: *mut State,
        context: *mut Context,
        bin: *mut u32,
        missing: *mut u32,
    ) -> u32;
}

/// The thread's own time.
pub fn nanoseconds() -> u64 {
    // SAFETY: it has no argument and keeps nothing.
    unsafe { plain_nanoseconds() }
}

fn file_by(f: File, stream: &[u8], rows: &mut [u32]) -> Answer {
    // SAFETY: both slices are lent with their own lengths; no row is written past `words`.
    unsafe { f(stream.as_ptr(), stream.len(), rows.as_mut_ptr(), rows.len()) }
}

pub fn file_by_three(stream: &[u8], rows: &mut [u32]) -> Answer {
    file_by(plain_file_by_three, stream, rows)
}

pub fn file_bytewise(stream: &[u8], rows: &mut [u32]) -> Answer {
    file_by(plain_file_bytewise, stream, rows)
}

/// Leaves rows of a refused stream half written.
pub fn file_one_pass(stream: &[u8], rows: &mut [u32]) -> Answer {
    file_by(plain_file_one_pass, stream, rows)
}

fn next_by(f: Next, stream: &[u8], from: usize) -> usize {
    // SAFETY: the slice is lent with its own length; nothing past it is read, whatever `from` is.
    unsafe { f(stream.as_ptr(), stream.len(), from) }
}

pub fn next_by_three(stream: &[u8], from: usize) -> usize {
    next_by(plain_next_by_three, stream, from)
}

pub fn next_bytewise(stream: &[u8], from: usize) -> usize {
    next_by(plain_next_bytewise, stream, from)
}

/// glibc's memmem.
pub fn next_memmem(stream: &[u8], from: usize) -> usize {
    next_by(plain_next_memmem, stream, from)
}

fn remove_by(f: Remove, raw: &[u8], output: &mut [u8]) -> Answer {
    // SAFETY: both slices are lent with their own lengths; no byte is written past `room`.
    unsafe { f(raw.as_ptr(), raw.len(), output.as_mut_ptr(), output.len()) }
}

pub fn remove_escapes(raw: &[u8], output: &mut [u8]) -> Answer {
    remove_by(plain_remove_escapes, raw, output)
}

pub fn remove_escapes_bitwise(raw: &[u8], output: &mut [u8]) -> Answer {
    remove_by(plain_remove_escapes_bitwise, raw, output)
}

pub fn remove_escapes_bytewise(raw: &[u8], output: &mut [u8]) -> Answer {
    remove_by(plain_remove_escapes_bytewise, raw, output)
}

pub fn start(bytes: &[u8], bits: usize, state: State) -> Started {
    // SAFETY: the slice is lent with its own length.
    unsafe { plain_start(bytes.as_ptr(), bytes.len(), bits, state) }
}

#[inline(always)]
pub fn decode(bytes: &[u8], bits: usize, state: State, context: Context) -> Bin {
    // SAFETY: the slice is lent with its own length.
    unsafe { plain_decode(bytes.as_ptr(), bytes.len(), bits, state, context) }
}

#[inline(always)]
pub fn decode_in_place(bytes: &[u8], bits: usize, state: &mut State, context: &mut Context) -> Result<u32, Unread> {
    let (mut bin, mut missing) = (0, 0);
    // SAFETY: the slice is lent with its own length; state, context, bin and missing are unique.
    let status = unsafe { plain_decode_in_place(bytes.as_ptr(), bytes.len(), bits, state, context, &mut bin, &mut missing) };
    if status == 0 {
        Ok(bin)
    } else {
        Err(Unread { status, missing })
    }
}
