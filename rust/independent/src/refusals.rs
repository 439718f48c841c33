//! Section "Refusal numbers", with the numbers of document 02, E1, what refusals carry by E1 and E13, and the limits of
//! section one.

/// Why a body is refused: the papers' number, and for MARKER and the values of fields the bit of the body, counted from 0.
#[derive(Clone, Copy, Debug, PartialEq, Eq)]
pub struct Fault {
    pub number: u32,
    pub bit: Option<u64>,
}

/// Why a stream is refused: number and bit as of a body, and the place that a filing refusal carries (0 elsewhere).
#[derive(Clone, Copy, Debug, PartialEq, Eq)]
pub struct Refused {
    pub number: u32,
    pub place: u64,
    pub bit: Option<u64>,
}

/// Why an Exp-Golomb number, a start or a bin is refused: the papers' number, and for PAYLOAD OUT how many more bits the read
/// that failed wanted than were left.
#[derive(Clone, Copy, Debug, PartialEq, Eq)]
pub struct Unread {
    pub number: u32,
    pub missing: Option<u32>,
}

impl Fault {
    /// The refusal of a stream that has this fault at this place.
    pub(crate) fn at(self, place: u64) -> Refused {
        let Fault { number, bit } = self;
        Refused { number, place, bit }
    }
}

/// The fault of a number that carries no bit.
pub(crate) fn without_bit(number: u32) -> Fault {
    Fault { number, bit: None }
}

/// The fault of a number that carries a bit.
pub(crate) fn with_bit(number: u32, bit: u64) -> Fault {
    Fault { number, bit: Some(bit) }
}

/// PAYLOAD OUT, with the bits that are missing.
pub(crate) fn payload_out(missing: u32) -> Unread {
    let missing = Some(missing);
    Unread {
        number: PAYLOAD_OUT,
        missing,
    }
}

/// Any other refusal of a payload: no bit is missing.
pub(crate) fn unread(number: u32) -> Unread {
    Unread { number, missing: None }
}

/// The numbers of the answers, rising, with their names; other numbers are not used.
pub const NAMES: [(u32, &str); 30] = [
    (0, "FILED"),
    (1, "NO CODE"),
    (2, "CUT"),
    (3, "OVERLAP"),
    (4, "UNKNOWN"),
    (5, "OUT OF PLACE"),
    (6, "SHORT"),
    (7, "MARKER"),
    (8, "VALUE"),
    (9, "STUFFING"),
    (10, "TWICE"),
    (11, "UNENDED"),
    (12, "FULL"),
    (13, "TOO LONG"),
    (14, "PAYLOAD OUT"),
    (15, "BAD STATE"),
    (16, "NO ROW"),
    (20, "VALUE of width"),
    (21, "VALUE of height"),
    (22, "VALUE of chroma"),
    (23, "VALUE of precision"),
    (24, "VALUE of aspect"),
    (25, "VALUE of rate"),
    (26, "VALUE of transfer"),
    (27, "VALUE of matrix"),
    (28, "VALUE of stereo"),
    (29, "VALUE of copyright owner"),
    (30, "VALUE of copyright number"),
    (31, "VALUE of slice order"),
    (32, "VALUE of slice row"),
];

/// The name of an answer's number, or none where the number is not used.
pub fn name(number: u32) -> Option<&'static str> {
    NAMES.iter().find(|(n, _)| *n == number).map(|(_, name)| *name)
}

pub(crate) const NO_CODE: u32 = 1;
pub(crate) const CUT: u32 = 2;
pub(crate) const OVERLAP: u32 = 3;
pub(crate) const UNKNOWN: u32 = 4;
pub(crate) const OUT_OF_PLACE: u32 = 5;
pub(crate) const SHORT: u32 = 6;
pub(crate) const MARKER: u32 = 7;
/// Of an Exp-Golomb number: the values of fields have numbers of their own.
pub(crate) const VALUE: u32 = 8;
pub(crate) const STUFFING: u32 = 9;
pub(crate) const TWICE: u32 = 10;
pub(crate) const UNENDED: u32 = 11;
pub(crate) const FULL: u32 = 12;
pub(crate) const TOO_LONG: u32 = 13;
pub(crate) const PAYLOAD_OUT: u32 = 14;
pub(crate) const BAD_STATE: u32 = 15;
pub(crate) const NO_ROW: u32 = 16;
pub(crate) const WIDTH: u32 = 20;
pub(crate) const HEIGHT: u32 = 21;
pub(crate) const CHROMA: u32 = 22;
pub(crate) const PRECISION: u32 = 23;
pub(crate) const ASPECT: u32 = 24;
pub(crate) const RATE: u32 = 25;
pub(crate) const TRANSFER: u32 = 26;
pub(crate) const MATRIX: u32 = 27;
pub(crate) const STEREO: u32 = 28;
pub(crate) const COPYRIGHT_OWNER: u32 = 29;
pub(crate) const COPYRIGHT_NUMBER: u32 = 30;
pub(crate) const SLICE_ORDER: u32 = 31;
pub(crate) const SLICE_ROW: u32 = 32;

/// The most bytes a stream may have.
pub(crate) const STREAM_LIMIT: usize = 16_777_216;
/// The most bytes a payload may have.
pub(crate) const PAYLOAD_LIMIT: usize = 65_536;
