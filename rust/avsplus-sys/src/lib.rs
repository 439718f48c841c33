//! The C interface of the library `avsplus` as its header has it: declarations and numbers, and nothing else. The crate
//! `avsplus` is the safe one above it.
//!
//! A pointer lent with a length points to that many elements, and a lent output overlaps nothing else that is lent. A null
//! pointer may be lent with length 0 only. No function allocates, keeps a pointer, or writes past what it says. A refusal
//! leaves all lent memory as it was.
//!
//! Numbers are written to lent memory from its start on, and the answer's count says how many; later ones stay. What is not
//! given is not written, needs no room and is never FULL.

#![no_std]
#![deny(missing_docs)]

/// The number of this interface, raised when it changes: compare it with what [`avsplus_version`] answers.
pub const AVSPLUS_VERSION: u32 = 3;

/// Status: done, or FILED for filing.
pub const AVSPLUS_DONE: u32 = 0;
/// Status: the stream does not begin with 00 00 01.
pub const AVSPLUS_NO_CODE: u32 = 1;
/// Status: a prefix has no code byte after it.
pub const AVSPLUS_CUT: u32 = 2;
/// Status: code byte 00 followed by 00 01.
pub const AVSPLUS_OVERLAP: u32 = 3;
/// Status: a code byte that names no unit.
pub const AVSPLUS_UNKNOWN: u32 = 4;
/// Status: the grammar has no such unit here.
pub const AVSPLUS_OUT_OF_PLACE: u32 = 5;
/// Status: a body too short for its layout.
pub const AVSPLUS_SHORT: u32 = 6;
/// Status: a marker bit is 0.
pub const AVSPLUS_MARKER: u32 = 7;
/// Status: an Exp-Golomb number with 32 zeros or more before its first 1. Values of fields have statuses of their own, from
/// [`AVSPLUS_VALUE_WIDTH`] on.
pub const AVSPLUS_VALUE: u32 = 8;
/// Status: a body's end is not as required.
pub const AVSPLUS_STUFFING: u32 = 9;
/// Status: a second display extension after one sequence header.
pub const AVSPLUS_TWICE: u32 = 10;
/// Status: the stream stops before it is complete.
pub const AVSPLUS_UNENDED: u32 = 11;
/// Status: the lent rows, numbers or output are too small.
pub const AVSPLUS_FULL: u32 = 12;
/// Status: over the limit.
pub const AVSPLUS_TOO_LONG: u32 = 13;
/// Status: more bits are wanted than the payload holds; `missing` says how many.
pub const AVSPLUS_PAYLOAD_OUT: u32 = 14;
/// Status: a bin state or context outside its ranges.
pub const AVSPLUS_BAD_STATE: u32 = 15;
/// Status: no such row or group.
pub const AVSPLUS_NO_ROW: u32 = 16;
/// Status: a horizontal size of 0.
pub const AVSPLUS_VALUE_WIDTH: u32 = 20;
/// Status: a vertical size of 0.
pub const AVSPLUS_VALUE_HEIGHT: u32 = 21;
/// Status: a chroma format other than 1 or 2.
pub const AVSPLUS_VALUE_CHROMA: u32 = 22;
/// Status: a precision other than 1.
pub const AVSPLUS_VALUE_PRECISION: u32 = 23;
/// Status: an aspect outside 1 to 4.
pub const AVSPLUS_VALUE_ASPECT: u32 = 24;
/// Status: a frame rate code outside 1 to 8.
pub const AVSPLUS_VALUE_RATE: u32 = 25;
/// Status: transfer 0, 3 or above 10.
pub const AVSPLUS_VALUE_TRANSFER: u32 = 26;
/// Status: matrix 0, 3 or above 7.
pub const AVSPLUS_VALUE_MATRIX: u32 = 27;
/// Status: stereo 3.
pub const AVSPLUS_VALUE_STEREO: u32 = 28;
/// Status: a copyright owner other than 0 with flag 0.
pub const AVSPLUS_VALUE_COPYRIGHT_OWNER: u32 = 29;
/// Status: a copyright number other than 0 with owner 0.
pub const AVSPLUS_VALUE_COPYRIGHT_NUMBER: u32 = 30;
/// Status: a slice's code byte not greater than that of the slice before it.
pub const AVSPLUS_VALUE_SLICE_ORDER: u32 = 31;
/// Status: a slice's code byte not less than the macroblock rows.
pub const AVSPLUS_VALUE_SLICE_ROW: u32 = 32;

/// The most bytes of a stream.
pub const AVSPLUS_LONGEST_STREAM: u32 = 16_777_216;
/// The most bytes of a payload.
pub const AVSPLUS_LONGEST_PAYLOAD: u32 = 65_536;

/// Word of a row: the code.
pub const AVSPLUS_ROW_CODE: usize = 0;
/// Word of a row: the offset of the start code.
pub const AVSPLUS_ROW_OFFSET: usize = 1;
/// Word of a row: the length of the body.
pub const AVSPLUS_ROW_LENGTH: usize = 2;
/// How many words a row has.
pub const AVSPLUS_ROW_WORDS: usize = 3;

/// Number of a sequence header, alone and of a group: profile.
pub const AVSPLUS_HEADER_PROFILE: usize = 0;
/// Number of a sequence header, alone and of a group: level.
pub const AVSPLUS_HEADER_LEVEL: usize = 1;
/// Number of a sequence header, alone and of a group: progressive.
pub const AVSPLUS_HEADER_PROGRESSIVE: usize = 2;
/// Number of a sequence header, alone and of a group: horizontal size.
pub const AVSPLUS_HEADER_HORIZONTAL_SIZE: usize = 3;
/// Number of a sequence header, alone and of a group: vertical size.
pub const AVSPLUS_HEADER_VERTICAL_SIZE: usize = 4;
/// Number of a sequence header, alone and of a group: chroma format.
pub const AVSPLUS_HEADER_CHROMA_FORMAT: usize = 5;
/// Number of a sequence header, alone and of a group: precision.
pub const AVSPLUS_HEADER_PRECISION: usize = 6;
/// Number of a sequence header, alone and of a group: aspect, for [`avsplus_display_ratio`].
pub const AVSPLUS_HEADER_ASPECT: usize = 7;
/// Number of a sequence header, alone and of a group: frame rate code, for [`avsplus_frame_rate`].
pub const AVSPLUS_HEADER_FRAME_RATE_CODE: usize = 8;
/// Number of a sequence header, alone and of a group: bit rate.
pub const AVSPLUS_HEADER_BIT_RATE: usize = 9;
/// Number of a sequence header, alone and of a group: low delay.
pub const AVSPLUS_HEADER_LOW_DELAY: usize = 10;
/// Number of a sequence header, alone and of a group: buffer size.
pub const AVSPLUS_HEADER_BUFFER_SIZE: usize = 11;
/// Number of a sequence header, alone and of a group: macroblock columns.
pub const AVSPLUS_HEADER_MACROBLOCK_COLUMNS: usize = 12;
/// Number of a sequence header, alone and of a group: macroblock rows.
pub const AVSPLUS_HEADER_MACROBLOCK_ROWS: usize = 13;
/// How many numbers a sequence header has.
pub const AVSPLUS_HEADER_NUMBERS: usize = 14;

/// Number of a group: the format of its display extension.
pub const AVSPLUS_GROUP_DISPLAY_FORMAT: usize = 14;
/// Number of a group: the range of its display extension.
pub const AVSPLUS_GROUP_DISPLAY_RANGE: usize = 15;
/// Number of a group: the width of its display extension.
pub const AVSPLUS_GROUP_DISPLAY_WIDTH: usize = 16;
/// Number of a group: the height of its display extension.
pub const AVSPLUS_GROUP_DISPLAY_HEIGHT: usize = 17;
/// Number of a group: the stereo of its display extension.
pub const AVSPLUS_GROUP_DISPLAY_STEREO: usize = 18;
/// Number of a group: the primaries of its display extension's colour.
pub const AVSPLUS_GROUP_COLOUR_PRIMARIES: usize = 19;
/// Number of a group: the transfer of its display extension's colour.
pub const AVSPLUS_GROUP_COLOUR_TRANSFER: usize = 20;
/// Number of a group: the matrix of its display extension's colour.
pub const AVSPLUS_GROUP_COLOUR_MATRIX: usize = 21;
/// How many numbers a group has without a display extension.
pub const AVSPLUS_GROUP_PLAIN: usize = 14;
/// How many with a display extension whose colour is not given.
pub const AVSPLUS_GROUP_WITH_DISPLAY: usize = 19;
/// How many with a display extension and its colour: the most.
pub const AVSPLUS_GROUP_WITH_COLOUR: usize = 22;

/// Number of an extension: its own.
pub const AVSPLUS_EXTENSION_NUMBER: usize = 0;
/// Number of a display extension: format.
pub const AVSPLUS_EXTENSION_DISPLAY_FORMAT: usize = 1;
/// Number of a display extension: range.
pub const AVSPLUS_EXTENSION_DISPLAY_RANGE: usize = 2;
/// Number of a display extension: width.
pub const AVSPLUS_EXTENSION_DISPLAY_WIDTH: usize = 3;
/// Number of a display extension: height.
pub const AVSPLUS_EXTENSION_DISPLAY_HEIGHT: usize = 4;
/// Number of a display extension: stereo.
pub const AVSPLUS_EXTENSION_DISPLAY_STEREO: usize = 5;
/// Number of a display extension's colour: primaries.
pub const AVSPLUS_EXTENSION_COLOUR_PRIMARIES: usize = 6;
/// Number of a display extension's colour: transfer.
pub const AVSPLUS_EXTENSION_COLOUR_TRANSFER: usize = 7;
/// Number of a display extension's colour: matrix.
pub const AVSPLUS_EXTENSION_COLOUR_MATRIX: usize = 8;
/// Number of a copyright extension: flag.
pub const AVSPLUS_EXTENSION_COPYRIGHT_FLAG: usize = 1;
/// Number of a copyright extension: owner.
pub const AVSPLUS_EXTENSION_COPYRIGHT_OWNER: usize = 2;
/// Number of a copyright extension: original.
pub const AVSPLUS_EXTENSION_COPYRIGHT_ORIGINAL: usize = 3;
/// Number of a copyright extension: the copyright number.
pub const AVSPLUS_EXTENSION_COPYRIGHT_NUMBER: usize = 4;
/// How many numbers an opaque extension has.
pub const AVSPLUS_EXTENSION_OPAQUE: usize = 1;
/// How many a copyright extension has.
pub const AVSPLUS_EXTENSION_COPYRIGHT: usize = 5;
/// How many a display extension has whose colour is not given.
pub const AVSPLUS_EXTENSION_DISPLAY: usize = 6;
/// How many a display extension has with its colour: the most.
pub const AVSPLUS_EXTENSION_WITH_COLOUR: usize = 9;

/// Number of a ratio: numerator.
pub const AVSPLUS_RATIO_NUMERATOR: usize = 0;
/// Number of a ratio: denominator.
pub const AVSPLUS_RATIO_DENOMINATOR: usize = 1;
/// How many numbers a ratio has.
pub const AVSPLUS_RATIO_NUMBERS: usize = 2;

/// Is no bit of a body: no refusal has so great a one.
pub const AVSPLUS_NO_BIT: usize = usize::MAX;
/// Is no Exp-Golomb number.
pub const AVSPLUS_NO_NUMBER: u32 = u32::MAX;
/// Is no signed Exp-Golomb number.
pub const AVSPLUS_NO_SIGNED_NUMBER: i32 = i32::MIN;
/// Is no bin: a bin is 0 or 1.
pub const AVSPLUS_NO_BIN: u32 = 2;
/// Is no lg of a context.
pub const AVSPLUS_NO_LG: u32 = u32::MAX;

/// Kind: a slice.
pub const AVSPLUS_SLICE: u32 = 0;
/// Kind: a sequence header.
pub const AVSPLUS_SEQUENCE_HEADER: u32 = 1;
/// Kind: a sequence end.
pub const AVSPLUS_SEQUENCE_END: u32 = 2;
/// Kind: user data.
pub const AVSPLUS_USER_DATA: u32 = 3;
/// Kind: an I picture.
pub const AVSPLUS_I_PICTURE: u32 = 4;
/// Kind: an extension.
pub const AVSPLUS_EXTENSION_UNIT: u32 = 5;
/// Kind: a P or B picture.
pub const AVSPLUS_PB_PICTURE: u32 = 6;
/// Kind: an edit code.
pub const AVSPLUS_EDIT_CODE: u32 = 7;
/// The code is UNKNOWN.
pub const AVSPLUS_NO_KIND: u32 = 8;

/// What a call answers.
#[repr(C)]
#[derive(Debug, Clone, Copy, PartialEq, Eq)]
pub struct Answer {
    /// 0, or the number of a refusal.
    pub status: u32,
    /// Of a refused stream, where in it the refusal stands; 0 where the answer has no offset.
    pub offset: usize,
    /// How many units, numbers or bits there are; 0 for a refusal and for what is not given.
    pub count: usize,
    /// Of [`AVSPLUS_MARKER`] and of statuses 20 to 32, which bit of the body, counted from 0: the marker, the first bit of the
    /// field, or 0 for a slice, which is refused for its code byte. [`AVSPLUS_NO_BIT`] for every other status.
    pub bit: usize,
}

/// A part of a stream.
#[repr(C)]
#[derive(Debug, Clone, Copy, PartialEq, Eq)]
pub struct Part {
    /// Where it begins.
    pub offset: usize,
    /// Its bytes.
    pub length: usize,
}

/// An Exp-Golomb number.
#[repr(C)]
#[derive(Debug, Clone, Copy, PartialEq, Eq)]
pub struct Golomb {
    /// 0, or the number of a refusal.
    pub status: u32,
    /// How many more bits were wanted than there are, 1 to 31, with [`AVSPLUS_PAYLOAD_OUT`]; 0 with every other status.
    pub missing: u32,
    /// [`AVSPLUS_NO_NUMBER`] for a refusal.
    pub number: u32,
    /// The place after the number; for a refusal the place that was asked for.
    pub place: usize,
}

/// A signed Exp-Golomb number.
#[repr(C)]
#[derive(Debug, Clone, Copy, PartialEq, Eq)]
pub struct SignedNumber {
    /// 0, or the number of a refusal.
    pub status: u32,
    /// How many more bits were wanted than there are, 1 to 31, with [`AVSPLUS_PAYLOAD_OUT`]; 0 with every other status.
    pub missing: u32,
    /// [`AVSPLUS_NO_SIGNED_NUMBER`] for a refusal.
    pub number: i32,
    /// The place after the number; for a refusal the place that was asked for.
    pub place: usize,
}

/// Where a bin decoder stands in its payload.
#[repr(C)]
#[derive(Debug, Clone, Copy, PartialEq, Eq)]
pub struct State {
    /// rS, at most `vs`.
    pub rs: u32,
    /// rT, at most 255.
    pub rt: u32,
    /// valueS, at most 524,288.
    pub vs: u32,
    /// valueT, at most 255.
    pub vt: u32,
    /// The next bit.
    pub place: usize,
}

/// What a context has learned of its bins.
#[repr(C)]
#[derive(Debug, Clone, Copy, PartialEq, Eq)]
pub struct Context {
    /// The more probable bin, 0 or 1.
    pub mps: u32,
    /// How probable the other bin is, 4 to 1023.
    pub lg: u32,
    /// How fast it learns, 0 to 3.
    pub cycno: u32,
}

/// A started state.
#[repr(C)]
#[derive(Debug, Clone, Copy, PartialEq, Eq)]
pub struct Started {
    /// 0, or the number of a refusal.
    pub status: u32,
    /// How many more bits were wanted than there are, 1 to 9, with [`AVSPLUS_PAYLOAD_OUT`]; 0 with every other status.
    pub missing: u32,
    /// For a refusal the state that was lent.
    pub state: State,
}

/// A bin without a context.
#[repr(C)]
#[derive(Debug, Clone, Copy, PartialEq, Eq)]
pub struct PlainBin {
    /// 0, or the number of a refusal.
    pub status: u32,
    /// How many more bits were wanted than there are, which is 1, with [`AVSPLUS_PAYLOAD_OUT`]; 0 with every other status.
    pub missing: u32,
    /// [`AVSPLUS_NO_BIN`] for a refusal.
    pub bin: u32,
    /// The state after the bin; for a refusal the one that was lent.
    pub state: State,
}

/// A bin by one context.
#[repr(C)]
#[derive(Debug, Clone, Copy, PartialEq, Eq)]
pub struct Bin {
    /// 0, or the number of a refusal.
    pub status: u32,
    /// How many more bits were wanted than there are, which is 1, with [`AVSPLUS_PAYLOAD_OUT`]; 0 with every other status.
    pub missing: u32,
    /// [`AVSPLUS_NO_BIN`] for a refusal.
    pub bin: u32,
    /// The state after the bin; for a refusal the one that was lent.
    pub state: State,
    /// The context after the bin; for a refusal the one that was lent.
    pub context: Context,
}

/// A bin by two contexts.
#[repr(C)]
#[derive(Debug, Clone, Copy, PartialEq, Eq)]
pub struct PairBin {
    /// 0, or the number of a refusal.
    pub status: u32,
    /// How many more bits were wanted than there are, which is 1, with [`AVSPLUS_PAYLOAD_OUT`]; 0 with every other status.
    pub missing: u32,
    /// [`AVSPLUS_NO_BIN`] for a refusal.
    pub bin: u32,
    /// The state after the bin; for a refusal the one that was lent.
    pub state: State,
    /// The first context after the bin; for a refusal the one that was lent.
    pub first: Context,
    /// The second context after the bin; for a refusal the one that was lent.
    pub second: Context,
}

extern "C" {
    /// The number of the library's interface: [`AVSPLUS_VERSION`] where these declarations are the library's.
    pub fn avsplus_version() -> u32;

    /// Checks a stream. Done: `count` is its units, so that filing it takes [`AVSPLUS_ROW_WORDS`] words for each. Refused as
    /// filing is, but never with FULL.
    pub fn avsplus_check(stream: *const u8, length: usize) -> Answer;

    /// Files a stream. Done: `count` is its units, and the first [`AVSPLUS_ROW_WORDS`] * `count` words of `rows` hold a row for
    /// each; later words stay. FULL, last of all, where `words` is less.
    pub fn avsplus_file(stream: *const u8, length: usize, rows: *mut u32, words: usize) -> Answer;

    /// Whether row `i` exists: `rows` holds it, and its body ends within the stream.
    pub fn avsplus_row_exists(stream: *const u8, length: usize, rows: *const u32, words: usize, i: usize) -> bool;

    /// Where the body of row `i` lies in the stream: offset 0 and length 0 where there is no such row.
    pub fn avsplus_row_body(stream: *const u8, length: usize, rows: *const u32, words: usize, i: usize) -> Part;

    /// Group `g` of a stream, counted from 0: [`AVSPLUS_GROUP_PLAIN`] numbers, [`AVSPLUS_GROUP_WITH_DISPLAY`] where it has a
    /// display extension, [`AVSPLUS_GROUP_WITH_COLOUR`] where that has its colour. The stream's own refusal comes first, then
    /// NO ROW where it has no such group, then FULL where fewer numbers are lent than it has. Each call checks the whole
    /// stream.
    pub fn avsplus_group(stream: *const u8, length: usize, g: usize, numbers: *mut u64, lent: usize) -> Answer;

    /// A sequence header's body: [`AVSPLUS_HEADER_NUMBERS`] numbers. FULL where the body is good and fewer are lent.
    pub fn avsplus_sequence_header(body: *const u8, length: usize, numbers: *mut u64, lent: usize) -> Answer;

    /// An extension's body, in a group's head or after a picture header: [`AVSPLUS_EXTENSION_DISPLAY`] numbers for a display
    /// extension or [`AVSPLUS_EXTENSION_WITH_COLOUR`] with its colour, [`AVSPLUS_EXTENSION_COPYRIGHT`] for a copyright
    /// extension, [`AVSPLUS_EXTENSION_OPAQUE`] for any other.
    pub fn avsplus_extension(body: *const u8, length: usize, in_head: bool, numbers: *mut u64, lent: usize) -> Answer;

    /// The frame rate of a code: [`AVSPLUS_RATIO_NUMBERS`] numbers, or done with count 0 for a code that gives none.
    pub fn avsplus_frame_rate(code: u32, numbers: *mut u64, lent: usize) -> Answer;

    /// The display ratio of an aspect: [`AVSPLUS_RATIO_NUMBERS`] numbers, or done with count 0 for an aspect that gives none.
    /// Aspect 1 gives none, for it says square samples.
    pub fn avsplus_display_ratio(aspect: u32, numbers: *mut u64, lent: usize) -> Answer;

    /// Removes escape bits. Done: `count` bits, packed into `output`, the last byte filled with zeros; later bytes stay. TOO
    /// LONG, then FULL where `room` is less than `length`.
    pub fn avsplus_remove_escapes(raw: *const u8, length: usize, output: *mut u8, room: usize) -> Answer;

    /// The Exp-Golomb number at a bit place of a payload, which is the first `bits` bits of `bytes`, or all where there are
    /// fewer. Of PAYLOAD OUT 1 bit is missing where the zeros or the 1 are cut, which are read bit by bit; the bits after the
    /// 1, as many as the zeros, are one read, which takes none of them where it fails. A place past the end counts as the end.
    pub fn avsplus_unsigned_golomb(bytes: *const u8, length: usize, bits: usize, place: usize) -> Golomb;

    /// The same as a signed number.
    pub fn avsplus_signed_golomb(bytes: *const u8, length: usize, bits: usize, place: usize) -> SignedNumber;

    /// A fresh context.
    pub fn avsplus_fresh_context() -> Context;

    /// Starts on a payload. The state that is lent comes back where the payload is refused. The first nine bits are one read:
    /// of PAYLOAD OUT 9 less the bits of a payload that has fewer are missing. Later ones are read bit by bit, so that 1 is.
    pub fn avsplus_start(bytes: *const u8, length: usize, bits: usize, state: State) -> Started;

    /// A bin by one context.
    pub fn avsplus_decode(bytes: *const u8, length: usize, bits: usize, state: State, context: Context) -> Bin;

    /// A bin by two contexts.
    pub fn avsplus_decode_pair(
        bytes: *const u8,
        length: usize,
        bits: usize,
        state: State,
        first: Context,
        second: Context,
    ) -> PairBin;

    /// A bypass bin.
    pub fn avsplus_bypass(bytes: *const u8, length: usize, bits: usize, state: State) -> PlainBin;

    /// A stuffing bin.
    pub fn avsplus_stuffing(bytes: *const u8, length: usize, bits: usize, state: State) -> PlainBin;

    /// The entry of a table of context steps: the lg of a context after a bin that was its mps, at the rate `w`, 3, 4 or 5.
    /// [`AVSPLUS_NO_LG`] for any other `w`, and for an `lg` over 1023.
    pub fn avsplus_next_lg(w: u32, lg: u32) -> u32;

    /// The first offset from `from` on where 00 00 01 stands, or the stream's length.
    pub fn avsplus_next_start_code(stream: *const u8, length: usize, from: usize) -> usize;

    /// The kind of a unit by its code byte.
    pub fn avsplus_kind(code: u8) -> u32;
}
