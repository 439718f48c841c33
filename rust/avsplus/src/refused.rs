//! Why a call has no answer: the refusals' numbers, names and sentences in one table, and the one error type.

use std::borrow::Cow;
use std::error::Error;
use std::fmt;

use avsplus_sys as sys;

/// What a value that is ruled out in a body is of, or a slice's code byte: each has a number of its own, 20 to 32.
#[derive(Debug, Clone, Copy, PartialEq, Eq, Hash)]
pub enum JudgedField {
    /// A sequence header's horizontal size.
    Width,
    /// A sequence header's vertical size.
    Height,
    /// A sequence header's chroma format.
    Chroma,
    /// A sequence header's precision.
    Precision,
    /// A sequence header's aspect.
    Aspect,
    /// A sequence header's frame rate code.
    Rate,
    /// The transfer of a display extension's colour.
    Transfer,
    /// The matrix of a display extension's colour.
    Matrix,
    /// A display extension's stereo.
    Stereo,
    /// A copyright extension's owner, which is 0 where its flag is.
    CopyrightOwner,
    /// A copyright extension's number, which is 0 where its owner is.
    CopyrightNumber,
    /// A slice's code byte, which is greater than that of the slice before it.
    SliceOrder,
    /// A slice's code byte, which is less than the macroblock rows.
    SliceRow,
}

impl JudgedField {
    /// Its name, such as "rate" or "copyright owner".
    ///
    /// ```
    /// assert_eq!(avsplus::JudgedField::SliceRow.name(), "slice row");
    /// ```
    pub fn name(self) -> &'static str {
        let entry = entry_of(Form::ValueOf(self)).expect("every field that is judged has an entry");
        entry.listed.name.trim_start_matches(VALUE_OF)
    }
}

impl fmt::Display for JudgedField {
    fn fmt(&self, f: &mut fmt::Formatter<'_>) -> fmt::Result {
        f.pad(self.name())
    }
}

/// Why something is refused. Later versions may have more reasons.
///
/// Since version 2 of the interface `Value` is an Exp-Golomb number's alone: bodies and slices have `ValueOf`. Since version 3
/// `PayloadOut` has how many bits were missing.
#[derive(Debug, Clone, Copy, PartialEq, Eq, Hash)]
#[non_exhaustive]
pub enum Reason {
    /// The stream does not begin with 00 00 01; it may have fewer bytes, or none.
    NoCode,
    /// A prefix has no code byte after it.
    Cut,
    /// Code byte 00 is followed by 00 01.
    Overlap,
    /// The code byte names no unit.
    Unknown,
    /// The grammar has no such unit here.
    OutOfPlace,
    /// The body is too short for its layout; of a picture or slice, it has no byte but 00.
    Short,
    /// A marker bit is 0.
    Marker {
        /// Which bit of the body, counted from 0.
        bit: usize,
    },
    /// An Exp-Golomb number has 32 zeros or more before its first 1.
    Value,
    /// A value in a body is ruled out, or a slice's code byte.
    ValueOf {
        /// What it is of.
        field: JudgedField,
        /// The field's first bit in the body, counted from 0. 0 for a slice, which is refused for its code byte.
        bit: usize,
    },
    /// The body's end is not as required.
    Stuffing,
    /// A second display extension follows one sequence header.
    Twice,
    /// The stream stops before it is complete.
    Unended,
    /// The lent rows or output are too small.
    Full,
    /// The stream or payload is over the limit.
    TooLong,
    /// More bits are wanted than the payload holds.
    PayloadOut {
        /// How many more than there are, at least 1: by the one read that failed, which takes none of its bits. The nine bits
        /// that bins start with are one read, and so are those of an Exp-Golomb number after its first 1; all others are read
        /// bit by bit. What would be read after it is not counted. A place past the payload's end counts as its end.
        missing: u32,
    },
    /// A bin state or context is outside its ranges.
    BadState,
    /// There is no such row or group.
    NoRow,
    /// The library answers with a status that this crate does not know: this one.
    Unlisted(u32),
    /// The library has another interface than this crate was written for: its version is this one.
    OtherInterface(u32),
    /// The library's answer is of a form that its interface does not have.
    Malformed,
}

/// A refusal of the library as it is listed for a person: what is the same of it wherever it stands. Later versions may say more.
#[derive(Debug, Clone, Copy, PartialEq, Eq, Hash)]
#[non_exhaustive]
pub struct ListedRefusal {
    /// The status that the library answers with.
    pub number: u32,
    /// Its name, such as "OUT OF PLACE" or "VALUE of rate".
    pub name: &'static str,
    /// What it means, in a few words.
    pub meaning: &'static str,
}

impl fmt::Display for ListedRefusal {
    /// Name and number: `PAYLOAD OUT (14)`.
    fn fmt(&self, f: &mut fmt::Formatter<'_>) -> fmt::Result {
        f.pad(&format!("{} ({})", self.name, self.number))
    }
}

impl ListedRefusal {
    /// The library's refusals, in the order of their numbers.
    pub fn all() -> impl ExactSizeIterator<Item = ListedRefusal> + DoubleEndedIterator {
        TABLE.iter().map(|entry| entry.listed)
    }

    /// The refusal with a number.
    ///
    /// ```
    /// use avsplus::ListedRefusal;
    ///
    /// assert_eq!(ListedRefusal::from_number(25).unwrap().name, "VALUE of rate");
    /// assert_eq!(ListedRefusal::from_number(0), None);
    /// ```
    pub fn from_number(number: u32) -> Option<ListedRefusal> {
        ListedRefusal::all().find(|listed| listed.number == number)
    }
}

/// What an answer of the library carries beside its status and offset; none carries two of these.
#[derive(Debug, Clone, Copy, PartialEq, Eq)]
enum Carried {
    Nothing,
    /// Which bit of the body.
    Bit(usize),
    /// How many bits were missing.
    Missing(u32),
}

/// A reason but for what it carries.
#[derive(Debug, Clone, Copy, PartialEq, Eq)]
enum Form {
    /// One that carries nothing.
    Plain(Reason),
    Marker,
    ValueOf(JudgedField),
    PayloadOut,
}

impl Form {
    fn of(reason: Reason) -> Form {
        match reason {
            Reason::Marker { .. } => Form::Marker,
            Reason::ValueOf { field, .. } => Form::ValueOf(field),
            Reason::PayloadOut { .. } => Form::PayloadOut,
            plain => Form::Plain(plain),
        }
    }

    /// The reason: none where something is there that it does not carry, or is not there that it does.
    fn with(self, carried: Carried) -> Option<Reason> {
        match (self, carried) {
            (Form::Plain(reason), Carried::Nothing) => Some(reason),
            (Form::Marker, Carried::Bit(bit)) => Some(Reason::Marker { bit }),
            (Form::ValueOf(field), Carried::Bit(bit)) => Some(Reason::ValueOf { field, bit }),
            (Form::PayloadOut, Carried::Missing(missing)) => Some(Reason::PayloadOut { missing }),
            _ => None,
        }
    }
}

/// A refusal of the library.
struct Entry {
    form: Form,
    listed: ListedRefusal,
}

const fn entry(form: Form, number: u32, name: &'static str, meaning: &'static str) -> Entry {
    let listed = ListedRefusal { number, name, meaning };
    Entry { form, listed }
}

const fn plain(reason: Reason, number: u32, name: &'static str, meaning: &'static str) -> Entry {
    entry(Form::Plain(reason), number, name, meaning)
}

const fn value_of(field: JudgedField, number: u32, name: &'static str, meaning: &'static str) -> Entry {
    entry(Form::ValueOf(field), number, name, meaning)
}

/// What the names of a field's refusal begin with.
const VALUE_OF: &str = "VALUE of ";

/// The refusals in the order of their numbers: what each is called, and what it means in a few words for a person.
#[rustfmt::skip]
const TABLE: [Entry; 29] = [
    plain(Reason::NoCode, sys::AVSPLUS_NO_CODE, "NO CODE", "the stream does not begin with 00 00 01"),
    plain(Reason::Cut, sys::AVSPLUS_CUT, "CUT", "a start code prefix has no code byte after it"),
    plain(Reason::Overlap, sys::AVSPLUS_OVERLAP, "OVERLAP", "code byte 00 is followed by 00 01"),
    plain(Reason::Unknown, sys::AVSPLUS_UNKNOWN, "UNKNOWN", "the code byte names no unit"),
    plain(Reason::OutOfPlace, sys::AVSPLUS_OUT_OF_PLACE, "OUT OF PLACE", "no such unit may stand here"),
    plain(Reason::Short, sys::AVSPLUS_SHORT, "SHORT", "the body has too few bytes, or none but 00"),
    entry(Form::Marker, sys::AVSPLUS_MARKER, "MARKER", "a marker bit is 0"),
    plain(Reason::Value, sys::AVSPLUS_VALUE, "VALUE", "an Exp-Golomb number begins with 32 zeros or more"),
    plain(Reason::Stuffing, sys::AVSPLUS_STUFFING, "STUFFING", "the body's end is not as required"),
    plain(Reason::Twice, sys::AVSPLUS_TWICE, "TWICE", "a second display extension follows one sequence header"),
    plain(Reason::Unended, sys::AVSPLUS_UNENDED, "UNENDED", "the stream stops before it is complete"),
    plain(Reason::Full, sys::AVSPLUS_FULL, "FULL", "the room lent is too small"),
    plain(Reason::TooLong, sys::AVSPLUS_TOO_LONG, "TOO LONG", "there are more bytes than the limit"),
    entry(Form::PayloadOut, sys::AVSPLUS_PAYLOAD_OUT, "PAYLOAD OUT", "more bits are wanted than the payload holds"),
    plain(Reason::BadState, sys::AVSPLUS_BAD_STATE, "BAD STATE", "a bin state or context is outside its ranges"),
    plain(Reason::NoRow, sys::AVSPLUS_NO_ROW, "NO ROW", "there is no such unit or group"),
    value_of(JudgedField::Width, sys::AVSPLUS_VALUE_WIDTH, "VALUE of width", "the horizontal size is 0"),
    value_of(JudgedField::Height, sys::AVSPLUS_VALUE_HEIGHT, "VALUE of height", "the vertical size is 0"),
    value_of(JudgedField::Chroma, sys::AVSPLUS_VALUE_CHROMA, "VALUE of chroma", "the chroma format is neither 1 nor 2"),
    value_of(JudgedField::Precision, sys::AVSPLUS_VALUE_PRECISION, "VALUE of precision", "the precision is not 1"),
    value_of(JudgedField::Aspect, sys::AVSPLUS_VALUE_ASPECT, "VALUE of aspect", "the aspect is not 1 to 4"),
    value_of(JudgedField::Rate, sys::AVSPLUS_VALUE_RATE, "VALUE of rate", "the frame rate code is not 1 to 8"),
    value_of(JudgedField::Transfer, sys::AVSPLUS_VALUE_TRANSFER, "VALUE of transfer", "the transfer is 0, 3 or above 10"),
    value_of(JudgedField::Matrix, sys::AVSPLUS_VALUE_MATRIX, "VALUE of matrix", "the matrix is 0, 3 or above 7"),
    value_of(JudgedField::Stereo, sys::AVSPLUS_VALUE_STEREO, "VALUE of stereo", "stereo is 3"),
    value_of(JudgedField::CopyrightOwner, sys::AVSPLUS_VALUE_COPYRIGHT_OWNER, "VALUE of copyright owner", "the flag is 0 and the owner is not"),
    value_of(JudgedField::CopyrightNumber, sys::AVSPLUS_VALUE_COPYRIGHT_NUMBER, "VALUE of copyright number", "the owner is 0 and the number is not"),
    value_of(JudgedField::SliceOrder, sys::AVSPLUS_VALUE_SLICE_ORDER, "VALUE of slice order", "the code byte is not above that of the slice before"),
    value_of(JudgedField::SliceRow, sys::AVSPLUS_VALUE_SLICE_ROW, "VALUE of slice row", "the code byte is not below the macroblock rows"),
];

fn entry_of(form: Form) -> Option<&'static Entry> {
    TABLE.iter().find(|entry| entry.form == form)
}

impl Reason {
    /// As it is listed. A status that is not known, a library of another interface, and an answer of no form are not.
    pub fn listed(self) -> Option<ListedRefusal> {
        entry_of(Form::of(self)).map(|entry| entry.listed)
    }

    /// Its number: the status that the library answers with. A library of another interface, and an answer of no form, have
    /// none.
    pub fn number(self) -> Option<u32> {
        match self {
            Reason::Unlisted(status) => Some(status),
            _ => self.listed().map(|listed| listed.number),
        }
    }

    /// Its name, such as "OUT OF PLACE" or "VALUE of rate".
    pub fn name(self) -> &'static str {
        match self {
            Reason::Unlisted(_) => "UNLISTED",
            Reason::OtherInterface(_) => "OTHER INTERFACE",
            _ => self.listed().map_or("MALFORMED", |listed| listed.name),
        }
    }

    /// What it means, in a few words for a person; of PAYLOAD OUT with how many bits were missing.
    ///
    /// ```
    /// use avsplus::Reason;
    ///
    /// let reason = Reason::PayloadOut { missing: 3 };
    /// assert_eq!(reason.meaning(), "3 more bits were wanted than the payload holds");
    /// assert_eq!(reason.listed().unwrap().meaning, "more bits are wanted than the payload holds");
    /// ```
    pub fn meaning(self) -> Cow<'static, str> {
        let plain = match self {
            Reason::PayloadOut { missing: 1 } => "1 more bit was wanted than the payload holds",
            Reason::PayloadOut { missing } => {
                return format!("{} more bits were wanted than the payload holds", missing).into()
            }
            Reason::Unlisted(_) => "the library answers with a status that is not known here",
            Reason::OtherInterface(_) => "the library has another interface than this program",
            _ => self
                .listed()
                .map_or("the library's answer has no known form", |listed| listed.meaning),
        };
        plain.into()
    }

    /// The bit of the body that it carries, counted from 0: that of MARKER and of VALUE of a field.
    pub fn bit(self) -> Option<usize> {
        match self {
            Reason::Marker { bit } | Reason::ValueOf { bit, .. } => Some(bit),
            _ => None,
        }
    }

    /// How many bits were missing: that of PAYLOAD OUT.
    pub fn missing(self) -> Option<u32> {
        match self {
            Reason::PayloadOut { missing } => Some(missing),
            _ => None,
        }
    }

    /// What the value is of that is ruled out.
    pub fn field(self) -> Option<JudgedField> {
        match self {
            Reason::ValueOf { field, .. } => Some(field),
            _ => None,
        }
    }

    /// Of a status that is not done, and of what it carries. Where these do not go together the answer is of no form.
    fn of(status: u32, carried: Carried) -> Reason {
        match (TABLE.iter().find(|entry| entry.listed.number == status), carried) {
            (Some(entry), _) => entry.form.with(carried).unwrap_or(Reason::Malformed),
            (None, Carried::Nothing) => Reason::Unlisted(status),
            (None, _) => Reason::Malformed,
        }
    }
}

impl fmt::Display for Reason {
    /// Name and number, where it has one; of PAYLOAD OUT how many bits were missing; of another interface its version.
    fn fmt(&self, f: &mut fmt::Formatter<'_>) -> fmt::Result {
        match (self, self.listed()) {
            (Reason::PayloadOut { .. }, Some(listed)) => f.pad(&format!("{}: {}", listed, self.meaning())),
            (_, Some(listed)) => listed.fmt(f),
            (Reason::Unlisted(status), None) => f.pad(&format!("{} ({})", self.name(), status)),
            (Reason::OtherInterface(version), None) => f.pad(&format!("{} (version {})", self.name(), version)),
            (_, None) => f.pad(self.name()),
        }
    }
}

/// Why a call has no answer. Later versions may say more of it.
#[derive(Debug, Clone, Copy, PartialEq, Eq, Hash)]
#[non_exhaustive]
pub struct Refused {
    /// The reason; of MARKER and of VALUE of a field with the bit of the body, of PAYLOAD OUT with how many bits were missing.
    pub reason: Reason,
    /// Of a refused stream the offset of the refused unit's start code; 0 for NO CODE, FULL and TOO LONG, the stream's length
    /// for UNENDED. NO ROW, and refusals of single bodies and of payloads, have none.
    pub offset: Option<usize>,
}

impl From<Reason> for Refused {
    /// A refusal that carries nothing but its reason. To ask for which reason something was refused, compare `reason`: refusals may
    /// come to carry more.
    fn from(reason: Reason) -> Refused {
        Refused { reason, offset: None }
    }
}

impl fmt::Display for Refused {
    /// The reason, and where: `VALUE of rate (25) at byte 0, bit 54 of the body`. What PAYLOAD OUT carries is no place, and stands
    /// in the reason: `PAYLOAD OUT (14): 3 more bits were wanted than the payload holds`.
    fn fmt(&self, f: &mut fmt::Formatter<'_>) -> fmt::Result {
        let reason = self.reason;
        match (self.offset, reason.bit()) {
            (Some(offset), Some(bit)) => f.pad(&format!("{} at byte {}, bit {} of the body", reason, offset, bit)),
            (Some(offset), None) => f.pad(&format!("{} at byte {}", reason, offset)),
            (None, Some(bit)) => f.pad(&format!("{} at bit {} of the body", reason, bit)),
            (None, None) => reason.fmt(f),
        }
    }
}

impl Error for Refused {}

/// A status, and what comes with it, as a result.
fn done(status: u32, carried: Carried) -> Result<(), Refused> {
    match (status, carried) {
        (sys::AVSPLUS_DONE, Carried::Nothing) => Ok(()),
        _ => Err(Reason::of(status, carried).into()),
    }
}

/// The status of what is read of a payload's bits as a result. PAYLOAD OUT comes with how many bits were missing, and 0 are
/// none.
pub(crate) fn was_read(status: u32, missing: u32) -> Result<(), Refused> {
    let carried = match missing {
        0 => Carried::Nothing,
        _ => Carried::Missing(missing),
    };
    done(status, carried)
}

/// An answer as a result: its count, or its refusal without an offset.
pub(crate) fn answered(answer: sys::Answer) -> Result<usize, Refused> {
    let carried = match answer.bit {
        sys::AVSPLUS_NO_BIT => Carried::Nothing,
        bit => Carried::Bit(bit),
    };
    done(answer.status, carried).map(|()| answer.count)
}

/// An answer about a stream as a result: its count, or its refusal with the offset. NO ROW has none, and of a status that is not
/// known and of an answer of no form it is not known.
pub(crate) fn of_stream(answer: sys::Answer) -> Result<usize, Refused> {
    answered(answer).map_err(|refused| match refused.reason {
        Reason::NoRow | Reason::Unlisted(_) | Reason::Malformed => refused,
        reason => Refused {
            reason,
            offset: Some(answer.offset),
        },
    })
}

/// Whether the library's version is the one that this crate was written for.
pub(crate) fn same_interface(version: u32) -> Result<(), Refused> {
    match version {
        sys::AVSPLUS_VERSION => Ok(()),
        _ => Err(Reason::OtherInterface(version).into()),
    }
}

#[cfg(test)]
mod tests {
    use super::*;

    /// Every refusal as the library answers with it: with what it carries.
    fn all() -> Vec<Reason> {
        let carried = |number| match number {
            7 | 20..=32 => Carried::Bit(5),
            14 => Carried::Missing(5),
            _ => Carried::Nothing,
        };
        ListedRefusal::all()
            .map(|listed| Reason::of(listed.number, carried(listed.number)))
            .collect()
    }

    #[test]
    fn numbers_and_names_of_the_reasons() {
        let expected = [
            (Reason::NoCode, 1, "NO CODE"),
            (Reason::Cut, 2, "CUT"),
            (Reason::Overlap, 3, "OVERLAP"),
            (Reason::Unknown, 4, "UNKNOWN"),
            (Reason::OutOfPlace, 5, "OUT OF PLACE"),
            (Reason::Short, 6, "SHORT"),
            (Reason::Marker { bit: 5 }, 7, "MARKER"),
            (Reason::Value, 8, "VALUE"),
            (Reason::Stuffing, 9, "STUFFING"),
            (Reason::Twice, 10, "TWICE"),
            (Reason::Unended, 11, "UNENDED"),
            (Reason::Full, 12, "FULL"),
            (Reason::TooLong, 13, "TOO LONG"),
            (Reason::PayloadOut { missing: 5 }, 14, "PAYLOAD OUT"),
            (Reason::BadState, 15, "BAD STATE"),
            (Reason::NoRow, 16, "NO ROW"),
        ];
        let all = all();
        for (reason, (expected, number, name)) in all.iter().zip(expected) {
            assert_eq!(
                (*reason, reason.number(), reason.name(), reason.field()),
                (expected, Some(number), name, None)
            );
        }
        assert_eq!(all.len(), 29);
        for (reason, listed) in all.iter().zip(ListedRefusal::all()) {
            assert_eq!(reason.listed(), Some(listed));
            assert_eq!(ListedRefusal::from_number(listed.number), Some(listed));
        }
        for number in [0, 17, 19, 33] {
            assert_eq!(ListedRefusal::from_number(number), None);
        }
    }

    #[test]
    fn fields_and_their_numbers() {
        let expected = [
            (JudgedField::Width, "width"),
            (JudgedField::Height, "height"),
            (JudgedField::Chroma, "chroma"),
            (JudgedField::Precision, "precision"),
            (JudgedField::Aspect, "aspect"),
            (JudgedField::Rate, "rate"),
            (JudgedField::Transfer, "transfer"),
            (JudgedField::Matrix, "matrix"),
            (JudgedField::Stereo, "stereo"),
            (JudgedField::CopyrightOwner, "copyright owner"),
            (JudgedField::CopyrightNumber, "copyright number"),
            (JudgedField::SliceOrder, "slice order"),
            (JudgedField::SliceRow, "slice row"),
        ];
        for (number, (field, name)) in (20..=32).zip(expected) {
            let reason = Reason::ValueOf { field, bit: 5 };
            assert_eq!((Reason::of(number, Carried::Bit(5)), reason.number()), (reason, Some(number)));
            assert_eq!((field.name(), reason.field(), reason.bit()), (name, Some(field), Some(5)));
            assert_eq!(reason.missing(), None);
            assert_eq!(reason.name(), format!("VALUE of {}", name));
        }
    }

    /// An answer that is no count.
    fn answer(status: u32, offset: usize, bit: usize) -> sys::Answer {
        sys::Answer {
            status,
            offset,
            count: 0,
            bit,
        }
    }

    /// Status by status: one of a bit and its lack is an answer, the other has no form. A status that is not known has no bit, and
    /// PAYLOAD OUT is none of these answers, for they do not say how many bits were missing.
    #[test]
    fn status_and_bit_go_together() {
        for status in (0..40).filter(|&status| status != 14) {
            let carries = status == 7 || (20..=32).contains(&status);
            for bit in [0, 54, usize::MAX - 1, sys::AVSPLUS_NO_BIT] {
                let fits = carries == (bit != sys::AVSPLUS_NO_BIT);
                for read in [answered, of_stream] {
                    let malformed = read(answer(status, 0, bit)) == Err(Reason::Malformed.into());
                    assert_eq!(malformed, !fits, "{} {}", status, bit);
                }
            }
        }
        for bit in [0, sys::AVSPLUS_NO_BIT] {
            assert_eq!(of_stream(answer(14, 0, bit)), Err(Reason::Malformed.into()));
        }
        assert_eq!(answered(answer(0, 0, sys::AVSPLUS_NO_BIT)), Ok(0));
    }

    /// Numbers and bins come with how many bits were missing, at least 1, where they are PAYLOAD OUT, and with 0 else. They have no
    /// bit of a body.
    #[test]
    fn status_and_missing_bits_go_together() {
        for status in 0..40 {
            let of_bodies = status == 7 || (20..=32).contains(&status);
            for missing in [0, 1, 9, 31, u32::MAX] {
                let fits = (status == 14) == (missing > 0) && !of_bodies;
                let malformed = was_read(status, missing) == Err(Reason::Malformed.into());
                assert_eq!(malformed, !fits, "{} {}", status, missing);
            }
        }
        assert_eq!(was_read(0, 0), Ok(()));
        for missing in [1, 9, 31] {
            let refused = was_read(14, missing).unwrap_err();
            assert_eq!((refused.reason, refused.offset), (Reason::PayloadOut { missing }, None));
            assert_eq!((refused.reason.missing(), refused.reason.bit()), (Some(missing), None));
        }
    }

    #[test]
    fn a_status_that_is_not_known_is_an_error() {
        assert_eq!((was_read(0, 0), was_read(16, 0)), (Ok(()), Err(Reason::NoRow.into())));
        for status in [17, 19, 33, u32::MAX] {
            let refused = was_read(status, 0).unwrap_err();
            assert_eq!(
                (refused.reason, refused.reason.number(), refused.reason.listed()),
                (Reason::Unlisted(status), Some(status), None)
            );
        }
        assert_eq!(was_read(17, 0).unwrap_err().to_string(), "UNLISTED (17)");
    }

    #[test]
    fn a_library_of_another_interface_is_an_error() {
        assert_eq!(same_interface(sys::AVSPLUS_VERSION), Ok(()));
        let refused = same_interface(sys::AVSPLUS_VERSION + 1).unwrap_err();
        assert_eq!(
            (refused.reason, refused.reason.number(), refused.reason.listed()),
            (Reason::OtherInterface(sys::AVSPLUS_VERSION + 1), None, None)
        );
        assert_eq!(refused.to_string(), "OTHER INTERFACE (version 4)");
    }

    #[test]
    fn refusals_are_shown_with_number_offset_and_bit() {
        let shown = |answer| of_stream(answer).unwrap_err().to_string();
        let none = sys::AVSPLUS_NO_BIT;
        assert_eq!(shown(answer(25, 0, 54)), "VALUE of rate (25) at byte 0, bit 54 of the body");
        assert_eq!(shown(answer(7, 19, 23)), "MARKER (7) at byte 19, bit 23 of the body");
        assert_eq!(shown(answer(2, 29, none)), "CUT (2) at byte 29");
        assert_eq!(shown(answer(16, 0, none)), "NO ROW (16)");
        assert_eq!(shown(answer(17, 0, none)), "UNLISTED (17)");
        assert_eq!(shown(answer(2, 29, 0)), "MALFORMED");
        let of_body = answered(answer(25, 0, 54)).unwrap_err();
        assert_eq!(of_body.to_string(), "VALUE of rate (25) at bit 54 of the body");
        assert_eq!(
            format!("{:>12}|{:<8}|{:<6}|", Reason::Cut, Reason::Malformed, JudgedField::Rate),
            "     CUT (2)|MALFORMED|rate  |"
        );
    }

    #[test]
    fn missing_bits_are_shown_with_their_number() {
        for (missing, said) in [
            (1, "1 more bit was wanted than the payload holds"),
            (3, "3 more bits were wanted than the payload holds"),
            (31, "31 more bits were wanted than the payload holds"),
        ] {
            let refused = was_read(14, missing).unwrap_err();
            let whole = format!("PAYLOAD OUT (14): {}", said);
            assert_eq!(refused.reason.meaning(), said);
            assert_eq!((refused.reason.to_string(), refused.to_string()), (whole.clone(), whole));
        }
        let listed = ListedRefusal::from_number(14).unwrap();
        assert_eq!(
            format!("{:<18}|{:>9}|", listed, Reason::Full),
            "PAYLOAD OUT (14)  |FULL (12)|"
        );
    }
}
