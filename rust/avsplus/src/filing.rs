//! Filing: the questions about a whole stream, and about rows.

use avsplus_sys::{self as sys, AVSPLUS_GROUP_PLAIN, AVSPLUS_GROUP_WITH_COLOUR};

use crate::bodies::{DisplayExtension, SequenceHeader};
use crate::calls;
use crate::refused::{of_stream, Reason, Refused};

/// The most bytes of a stream.
pub const LONGEST_STREAM: usize = sys::AVSPLUS_LONGEST_STREAM as usize;

/// Words of a row: code, offset of the start code, length of the body.
pub const ROW_WORDS: usize = sys::AVSPLUS_ROW_WORDS;

/// The first offset from `from` on where 00 00 01 stands, or the stream's length.
///
/// ```
/// let stream = [0, 0, 1, 0xB3, 0x80, 0, 0, 1, 0xB1];
/// assert_eq!(avsplus::next_start_code(&stream, 0), Ok(0));
/// assert_eq!(avsplus::next_start_code(&stream, 1), Ok(5));
/// assert_eq!(avsplus::next_start_code(&stream, 6), Ok(9));
/// ```
pub fn next_start_code(stream: &[u8], from: usize) -> Result<usize, Refused> {
    match calls::next_start_code(stream, from)? {
        offset if offset <= stream.len() => Ok(offset),
        _ => Err(Reason::Malformed.into()),
    }
}

/// The totals of a filed stream. Later versions may have more.
#[derive(Debug, Clone, Copy, PartialEq, Eq, Hash)]
#[non_exhaustive]
pub struct Totals {
    /// How many units it has.
    pub units: usize,
}

impl Totals {
    /// Of the library's answer. MALFORMED for more units than a stream of this length can have: each takes four bytes or more.
    fn of(stream: &[u8], answer: sys::Answer) -> Result<Totals, Refused> {
        match of_stream(answer)? {
            units if units <= stream.len() / 4 => Ok(Totals { units }),
            _ => Err(Reason::Malformed.into()),
        }
    }
}

/// Checks a stream and answers its totals. Refused as filing is, but never with FULL.
///
/// ```
/// let header = [0x48, 0x40, 0x0F, 0x00, 0x21, 0xC2, 0x4C, 0xC4, 0xE2, 0x08, 0x00, 0x20, 0x02, 0x00, 0x80];
/// let rest = [0, 0, 1, 0xB3, 0x80, 0, 0, 1, 0x00, 0x80, 0, 0, 1, 0xB1];
/// let stream = [&[0, 0, 1, 0xB0][..], &header, &rest].concat();
///
/// assert_eq!(avsplus::check(&stream)?.units, 4);
/// assert_eq!(avsplus::check(&stream[..29]).unwrap_err().to_string(), "UNENDED (11) at byte 29");
/// # Ok::<(), avsplus::Refused>(())
/// ```
pub fn check(stream: &[u8]) -> Result<Totals, Refused> {
    Totals::of(stream, calls::check(stream)?)
}

/// Files a stream into lent rows and answers its totals. Each unit takes three words: code, offset of the start code, length of the
/// body; later words stay. FULL, last of all, where fewer words are lent.
///
/// ```
/// use avsplus::Reason;
///
/// let header = [0x48, 0x40, 0x0F, 0x00, 0x21, 0xC2, 0x4C, 0xC4, 0xE2, 0x08, 0x00, 0x20, 0x02, 0x00, 0x80];
/// let rest = [0, 0, 1, 0xB3, 0x80, 0, 0, 1, 0x00, 0x80, 0, 0, 1, 0xB1];
/// let stream = [&[0, 0, 1, 0xB0][..], &header, &rest].concat();
///
/// let mut rows = [0; 12];
/// assert_eq!(avsplus::file_into(&stream, &mut rows)?.units, 4);
/// assert_eq!(rows, [176, 0, 15, 179, 19, 1, 0, 24, 1, 177, 29, 0]);
///
/// let refused = avsplus::file_into(&stream, &mut rows[..11]).unwrap_err();
/// assert_eq!(refused.reason, Reason::Full);
/// # Ok::<(), avsplus::Refused>(())
/// ```
pub fn file_into(stream: &[u8], rows: &mut [u32]) -> Result<Totals, Refused> {
    Totals::of(stream, calls::file(stream, rows)?)
}

/// Whether row `i` exists: `rows` holds it, and its body ends within the stream.
///
/// ```
/// let stream = [0, 0, 1, 0xB2, 0x41, 0x42];
/// assert_eq!(avsplus::row_exists(&stream, &[0xB2, 0, 2], 0), Ok(true));
/// assert_eq!(avsplus::row_exists(&stream, &[0xB2, 0, 3], 0), Ok(false));
/// assert_eq!(avsplus::row_exists(&stream, &[0xB2, 0, 2], 1), Ok(false));
/// ```
pub fn row_exists(stream: &[u8], rows: &[u32], i: usize) -> Result<bool, Refused> {
    calls::row_exists(stream, rows, i)
}

/// The body of row `i`, a part of the caller's own stream; NO ROW where there is no such row.
///
/// ```
/// use avsplus::Reason;
///
/// let stream = [0, 0, 1, 0xB2, 0x41, 0x42];
/// assert_eq!(avsplus::row_body(&stream, &[0xB2, 0, 2], 0), Ok(&stream[4..]));
/// assert_eq!(avsplus::row_body(&stream, &[0xB2, 0, 3], 0).unwrap_err().reason, Reason::NoRow);
/// ```
pub fn row_body<'a>(stream: &'a [u8], rows: &[u32], i: usize) -> Result<&'a [u8], Refused> {
    if !row_exists(stream, rows, i)? {
        return Err(Reason::NoRow.into());
    }
    let part = calls::row_body(stream, rows, i)?;
    let body = stream.get(part.offset..).and_then(|from| from.get(..part.length));
    Ok(body.ok_or(Reason::Malformed)?)
}

/// A group's record. Later versions may have more.
#[derive(Debug, Clone, Copy, PartialEq, Eq, Hash)]
#[non_exhaustive]
pub struct Group {
    /// Its sequence header.
    pub header: SequenceHeader,
    /// Its display extension, where it is given.
    pub display: Option<DisplayExtension>,
}

impl Group {
    /// Of its header's numbers, or with those of its display extension after them; MALFORMED for another count.
    fn from_numbers(numbers: &[u64]) -> Result<Group, Refused> {
        let (header, display) = numbers.split_at(numbers.len().min(AVSPLUS_GROUP_PLAIN));
        let display = match display {
            [] => None,
            given => Some(DisplayExtension::from_numbers(given)?),
        };
        Ok(Group {
            header: SequenceHeader::from_numbers(header)?,
            display,
        })
    }
}

/// The record of group `g` of a stream, counted from 0. The stream's own refusal comes first, then NO ROW.
///
/// Every call checks the stream anew; for many groups of one stream use [`Recording::groups`](crate::Recording::groups).
///
/// ```
/// use avsplus::Reason;
///
/// let header = [0x48, 0x40, 0x0F, 0x00, 0x21, 0xC2, 0x4C, 0xC4, 0xE2, 0x08, 0x00, 0x20, 0x02, 0x00, 0x80];
/// let rest = [0, 0, 1, 0xB3, 0x80, 0, 0, 1, 0x00, 0x80, 0, 0, 1, 0xB1];
/// let stream = [&[0, 0, 1, 0xB0][..], &header, &rest].concat();
///
/// let group = avsplus::group(&stream, 0)?;
/// assert_eq!(group.header.frame_rate.to_string(), "25/1");
/// assert_eq!(group.display, None);
/// assert_eq!(avsplus::group(&stream, 1).unwrap_err().reason, Reason::NoRow);
/// # Ok::<(), avsplus::Refused>(())
/// ```
pub fn group(stream: &[u8], g: usize) -> Result<Group, Refused> {
    let mut numbers = [0; AVSPLUS_GROUP_WITH_COLOUR];
    let count = of_stream(calls::group(stream, g, &mut numbers)?)?;
    Group::from_numbers(numbers.get(..count).ok_or(Reason::Malformed)?)
}

#[cfg(test)]
mod tests {
    use super::*;

    #[test]
    fn other_counts_are_no_groups() {
        let counts: Vec<usize> = (0..30)
            .filter(|&count| Group::from_numbers(&[1; 30][..count]).is_ok())
            .collect();
        assert_eq!(counts, [14, 19, 22]);
    }

    #[test]
    fn more_units_than_bytes_are_an_error() {
        let answer = |count| sys::Answer {
            status: 0,
            offset: 0,
            count,
            bit: sys::AVSPLUS_NO_BIT,
        };
        assert_eq!(Totals::of(&[0; 8], answer(2)), Ok(Totals { units: 2 }));
        for count in [3, usize::MAX] {
            assert_eq!(Totals::of(&[0; 8], answer(count)), Err(Reason::Malformed.into()));
        }
    }
}
