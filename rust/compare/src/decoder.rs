//! A decoder: for each question a function, with what it answers and what it writes into lent memory as the C interface has it.

use avsplus_sys::{
    Answer, Bin, Context, Golomb, PairBin, Part, PlainBin, SignedNumber, Started, State, AVSPLUS_DONE, AVSPLUS_FULL,
    AVSPLUS_NO_BIN, AVSPLUS_NO_BIT, AVSPLUS_NO_NUMBER, AVSPLUS_NO_SIGNED_NUMBER,
};

/// Numbers of a code.
pub type CodeNumbers = fn(u32, &mut [u64]) -> Answer;
/// A bin without a context: bytes, bits and state.
pub type PlainBinOf = fn(&[u8], usize, State) -> PlainBin;

/// Plain functions, so that a test can put another one in the place of any.
#[derive(Clone, Copy)]
pub struct Decoder {
    pub name: &'static str,
    pub check: fn(&[u8]) -> Answer,
    pub file: fn(&[u8], &mut [u32]) -> Answer,
    pub row_exists: fn(&[u8], &[u32], usize) -> bool,
    pub row_body: fn(&[u8], &[u32], usize) -> Part,
    /// Numbers of a stream's group, counted from 0.
    pub group: fn(&[u8], usize, &mut [u64]) -> Answer,
    pub sequence_header: fn(&[u8], &mut [u64]) -> Answer,
    /// Numbers of a body, in a group's head or after a picture header.
    pub extension: fn(&[u8], bool, &mut [u64]) -> Answer,
    pub frame_rate: CodeNumbers,
    pub display_ratio: CodeNumbers,
    pub remove_escapes: fn(&[u8], &mut [u8]) -> Answer,
    pub unsigned_golomb: fn(&[u8], usize, usize) -> Golomb,
    pub signed_golomb: fn(&[u8], usize, usize) -> SignedNumber,
    pub fresh_context: fn() -> Context,
    pub start: fn(&[u8], usize, State) -> Started,
    pub decode: fn(&[u8], usize, State, Context) -> Bin,
    pub decode_pair: fn(&[u8], usize, State, Context, Context) -> PairBin,
    pub bypass: PlainBinOf,
    pub stuffing: PlainBinOf,
    /// The entry of the table for a w at an lg.
    pub next_lg: fn(u32, u32) -> u32,
    pub next_start_code: fn(&[u8], usize) -> usize,
    pub kind: fn(u8) -> u32,
}

/// A good answer.
pub(crate) fn done(count: usize) -> Answer {
    Answer {
        status: AVSPLUS_DONE,
        offset: 0,
        count,
        bit: AVSPLUS_NO_BIT,
    }
}

/// A refusal, with the bit of a body where it carries one.
pub(crate) fn refused(status: u32, offset: usize, bit: Option<usize>) -> Answer {
    Answer {
        status,
        offset,
        count: 0,
        bit: bit.unwrap_or(AVSPLUS_NO_BIT),
    }
}

/// Hands words over into lent memory: FULL where fewer are lent; no words stand for something not given.
pub(crate) fn hand_over<T: Copy>(words: &[T], lent: &mut [T]) -> Answer {
    match lent.get_mut(..words.len()) {
        Some(part) => {
            part.copy_from_slice(words);
            done(words.len())
        }
        None => refused(AVSPLUS_FULL, 0, None),
    }
}

/// The status of a number, a start or a bin, with the bits that were missing: none for every status but PAYLOAD OUT.
#[derive(Clone, Copy)]
pub(crate) struct Status {
    pub number: u32,
    pub missing: u32,
}

impl Status {
    /// Of what was read or refused.
    fn of<T>(read: &Result<T, Status>) -> Status {
        let done = Status {
            number: AVSPLUS_DONE,
            missing: 0,
        };
        read.as_ref().err().copied().unwrap_or(done)
    }
}

/// The answer for an Exp-Golomb number read, or not, at a place.
pub(crate) fn golomb(read: Result<(u32, usize), Status>, place: usize) -> Golomb {
    let status = Status::of(&read);
    let (number, place) = read.unwrap_or((AVSPLUS_NO_NUMBER, place));
    Golomb {
        status: status.number,
        missing: status.missing,
        number,
        place,
    }
}

/// The same for a signed number.
pub(crate) fn signed_number(read: Result<(i32, usize), Status>, place: usize) -> SignedNumber {
    let status = Status::of(&read);
    let (number, place) = read.unwrap_or((AVSPLUS_NO_SIGNED_NUMBER, place));
    SignedNumber {
        status: status.number,
        missing: status.missing,
        number,
        place,
    }
}

/// The answer for a start, with the state that was lent where it is refused.
pub(crate) fn started(started: Result<State, Status>, lent: State) -> Started {
    let status = Status::of(&started);
    let state = started.unwrap_or(lent);
    Started {
        status: status.number,
        missing: status.missing,
        state,
    }
}

/// Status and bin of a bin that was decoded or refused.
pub(crate) fn bin(decoded: Result<u32, Status>) -> (Status, u32) {
    (Status::of(&decoded), decoded.unwrap_or(AVSPLUS_NO_BIN))
}
