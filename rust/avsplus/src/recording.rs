//! A filed stream with its units and groups.

use std::fmt;
use std::iter::FusedIterator;
use std::ops::Range;

use avsplus_sys::{AVSPLUS_ROW_CODE, AVSPLUS_ROW_LENGTH, AVSPLUS_ROW_OFFSET};

use crate::bodies::{extension, sequence_header, DisplayExtension, Extension, Scope};
use crate::filing::{check, file_into, row_exists, Group, Totals, ROW_WORDS};
use crate::kinds::Kind;
use crate::refused::{Reason, Refused};

/// Bytes of a unit before its body: 00 00 01 and the code byte.
const BEFORE_BODY: usize = 4;

/// Files a stream, with memory of its own for the rows: 12 bytes a unit and 8 a group. Never refused with FULL.
///
/// ```
/// let header = [0x48, 0x40, 0x0F, 0x00, 0x21, 0xC2, 0x4C, 0xC4, 0xE2, 0x08, 0x00, 0x20, 0x02, 0x00, 0x80];
/// let rest = [0, 0, 1, 0xB3, 0x80, 0, 0, 1, 0x00, 0x80, 0, 0, 1, 0xB1];
/// let mut stream = [&[0, 0, 1, 0xB0][..], &header, &rest].concat();
/// assert_eq!(avsplus::file(&stream)?.units().len(), 4);
///
/// assert_eq!(avsplus::file(&stream[..29]).unwrap_err().to_string(), "UNENDED (11) at byte 29");
/// assert_eq!(avsplus::file(&stream[..32]).unwrap_err().to_string(), "CUT (2) at byte 29");
/// assert_eq!(avsplus::file(&[]).unwrap_err().to_string(), "NO CODE (1) at byte 0");
///
/// // A slice's code byte is below the macroblock rows, here 68.
/// stream[27] = 0x43;
/// assert!(avsplus::file(&stream).is_ok());
/// stream[27] = 0x44;
/// assert_eq!(avsplus::file(&stream).unwrap_err().to_string(), "VALUE of slice row (32) at byte 24, bit 0 of the body");
/// # Ok::<(), avsplus::Refused>(())
/// ```
pub fn file(stream: &[u8]) -> Result<Recording<'_>, Refused> {
    let mut rows = vec![0; ROW_WORDS * check(stream)?.units];
    file_into(stream, &mut rows)?;
    Recording::new(stream, rows)
}

/// A unit of a filed stream.
#[derive(Debug, Clone, Copy, PartialEq, Eq, Hash)]
#[non_exhaustive]
pub struct Unit<'a> {
    /// Its number in the stream, counted from 0.
    pub index: usize,
    /// The group it belongs to, counted from 0; the ending belongs to none.
    pub group: Option<usize>,
    /// Whether it stands in its group's head, which ends before the first picture.
    pub in_head: bool,
    /// Its code byte.
    pub code: u8,
    /// Its kind.
    pub kind: Kind,
    /// The offset of its start code in the stream.
    pub offset: usize,
    /// Its body, a part of the stream: without its trailing zero bytes, but whole for user data and opaque extensions.
    pub body: &'a [u8],
    /// How many zero bytes stand between this body and the next unit, or the stream's end.
    pub trailing_zeros: usize,
}

impl Unit<'_> {
    /// What its body says where it is an extension, by where it stands; none for any other unit.
    pub fn extension(&self) -> Result<Option<Extension>, Refused> {
        let scope = if self.in_head { Scope::Head } else { Scope::Picture };
        match self.kind {
            Kind::Extension => extension(self.body, scope).map(Some),
            _ => Ok(None),
        }
    }
}

/// The units of a group, by number: its sequence header, and its first picture.
#[derive(Debug, Clone, Copy, PartialEq, Eq)]
struct Span {
    header: u32,
    picture: u32,
}

/// Stands for the first picture until it is met; no unit has so high a number.
const NO_PICTURE: u32 = u32::MAX;

/// A filed stream: the caller's own bytes and their rows, which take 12 bytes a unit and 8 a group.
///
/// ```
/// use avsplus::Kind;
///
/// let header = [0x48, 0x40, 0x0F, 0x00, 0x21, 0xC2, 0x4C, 0xC4, 0xE2, 0x08, 0x00, 0x20, 0x02, 0x00, 0x80];
/// let rest = [0, 0, 1, 0xB3, 0x80, 0, 0, 1, 0x00, 0x80, 0, 0, 1, 0xB1];
/// let stream = [&[0, 0, 1, 0xB0][..], &header, &rest].concat();
///
/// let recording = avsplus::file(&stream)?;
/// assert_eq!((recording.units().len(), recording.groups().len()), (4, 1));
/// let end = recording.units().next_back().unwrap();
/// assert_eq!((end.kind, end.group, end.offset), (Kind::SequenceEnd, None, 29));
/// # Ok::<(), avsplus::Refused>(())
/// ```
#[derive(Clone, PartialEq, Eq)]
pub struct Recording<'a> {
    stream: &'a [u8],
    rows: Vec<u32>,
    groups: Vec<Span>,
    /// The number of the ending's first unit.
    ending: usize,
}

impl fmt::Debug for Recording<'_> {
    /// How much there is of it, and not its bytes, which may be many.
    fn fmt(&self, f: &mut fmt::Formatter<'_>) -> fmt::Result {
        f.debug_struct("Recording")
            .field("bytes", &self.stream.len())
            .field("units", &self.units().len())
            .field("groups", &self.groups.len())
            .finish()
    }
}

impl<'a> Recording<'a> {
    /// Of the rows that the library filed. MALFORMED where they are not rows of this stream, unit after unit and group after
    /// group, so that nothing below has to ask again.
    fn new(stream: &'a [u8], rows: Vec<u32>) -> Result<Recording<'a>, Refused> {
        let mut groups = Vec::with_capacity(header_count(&rows));
        let (units, mut end) = (rows.len() / ROW_WORDS, 0);
        let mut ending = units;
        for i in 0..units {
            end = end_of_row(stream, &rows, i, end)?;
            match kind_of_row(&rows, i).ok_or(Reason::Malformed)? {
                Kind::SequenceEnd | Kind::EditCode => ending = ending.min(i),
                kind if i < ending => take_unit(&mut groups, i, kind)?,
                _ => return Err(Reason::Malformed.into()),
            }
        }
        let whole = stream[end..].iter().all(|&byte| byte == 0);
        if !whole || groups.is_empty() || groups.iter().any(|span| span.picture == NO_PICTURE) {
            return Err(Reason::Malformed.into());
        }
        Ok(Recording {
            stream,
            rows,
            groups,
            ending,
        })
    }

    /// The stream itself.
    pub fn stream(&self) -> &'a [u8] {
        self.stream
    }

    /// The rows as they were filed, three words a unit.
    pub fn rows(&self) -> &[u32] {
        &self.rows
    }

    /// Its totals.
    pub fn totals(&self) -> Totals {
        Totals {
            units: self.rows.len() / ROW_WORDS,
        }
    }

    /// Its units in order.
    pub fn units(&self) -> Units<'_, 'a> {
        self.units_in(0..self.rows.len() / ROW_WORDS)
    }

    /// Unit `i`, counted from 0; NO ROW where there is none.
    ///
    /// ```
    /// # let header = [0x48, 0x40, 0x0F, 0x00, 0x21, 0xC2, 0x4C, 0xC4, 0xE2, 0x08, 0x00, 0x20, 0x02, 0x00, 0x80];
    /// # let rest = [0, 0, 1, 0xB3, 0x80, 0, 0, 1, 0x00, 0x80, 0, 0, 1, 0xB1];
    /// # let stream = [&[0, 0, 1, 0xB0][..], &header, &rest].concat();
    /// let recording = avsplus::file(&stream)?;
    /// let unit = recording.unit(1)?;
    /// assert_eq!((unit.code, unit.kind, unit.offset), (0xB3, avsplus::Kind::IPicture, 19));
    /// assert_eq!(unit.body, &stream[23..24]);
    /// assert_eq!(recording.unit(4).unwrap_err().to_string(), "NO ROW (16)");
    /// # Ok::<(), avsplus::Refused>(())
    /// ```
    pub fn unit(&self, i: usize) -> Result<Unit<'a>, Refused> {
        Ok(self.units().nth(i).ok_or(Reason::NoRow)?)
    }

    /// The records of all groups in order.
    pub fn groups(&self) -> Groups<'_, 'a> {
        Groups {
            recording: self,
            left: 0..self.groups.len(),
        }
    }

    /// The record of group `g`, counted from 0; NO ROW where there is none. Each call reads the group's head.
    pub fn group(&self, g: usize) -> Result<Group, Refused> {
        self.groups().nth(g).unwrap_or_else(|| Err(Reason::NoRow.into()))
    }

    /// The units of group `g`, counted from 0: there are none of a group that there is not.
    pub fn units_of(&self, g: usize) -> Units<'_, 'a> {
        let begin = |g: usize| self.groups.get(g).map_or(self.ending, |span| span.header as usize);
        self.units_in(begin(g)..begin(g.saturating_add(1)))
    }

    fn units_in(&self, left: Range<usize>) -> Units<'_, 'a> {
        Units { recording: self, left }
    }

    /// Unit `i` of those that there are.
    fn unit_at(&self, i: usize) -> Unit<'a> {
        let offset = word(&self.rows, i, AVSPLUS_ROW_OFFSET);
        let begins = offset + BEFORE_BODY;
        let ends = begins + word(&self.rows, i, AVSPLUS_ROW_LENGTH);
        let next = match i + 1 < self.rows.len() / ROW_WORDS {
            true => word(&self.rows, i + 1, AVSPLUS_ROW_OFFSET),
            false => self.stream.len(),
        };
        let code = word(&self.rows, i, AVSPLUS_ROW_CODE) as u8;
        // The last group whose header is not after it.
        let group = self.groups.partition_point(|span| span.header as usize <= i) - 1;
        Unit {
            index: i,
            group: if i < self.ending { Some(group) } else { None },
            in_head: i < self.groups[group].picture as usize,
            code,
            kind: Kind::of(code).expect("every row's code was seen to have a kind"),
            offset,
            body: &self.stream[begins..ends],
            trailing_zeros: next - ends,
        }
    }

    /// Group `g` of those that there are. Of its head only the extensions are looked at.
    fn group_at(&self, g: usize) -> Result<Group, Refused> {
        let Span { header, picture } = self.groups[g];
        let mut extensions =
            (header as usize..picture as usize).filter(|&i| kind_of_row(&self.rows, i) == Some(Kind::Extension));
        let display = extensions.find_map(|i| display_of(&self.unit_at(i)).transpose());
        Ok(Group {
            header: sequence_header(self.unit_at(header as usize).body)?,
            display: display.transpose()?,
        })
    }
}

impl<'r, 'a> IntoIterator for &'r Recording<'a> {
    type Item = Unit<'a>;
    type IntoIter = Units<'r, 'a>;

    fn into_iter(self) -> Units<'r, 'a> {
        self.units()
    }
}

/// An iterator over the numbers of units or groups: exact in size, from both ends, and each is found at once.
macro_rules! walk {
    ($(#[$about:meta])* $name:ident, $item:ty, $at:ident) => {
        $(#[$about])*
        #[derive(Debug, Clone)]
        pub struct $name<'r, 'a> {
            recording: &'r Recording<'a>,
            left: Range<usize>,
        }

        impl<'r, 'a> Iterator for $name<'r, 'a> {
            type Item = $item;

            fn next(&mut self) -> Option<$item> {
                self.left.next().map(|i| self.recording.$at(i))
            }

            fn nth(&mut self, n: usize) -> Option<$item> {
                self.left.nth(n).map(|i| self.recording.$at(i))
            }

            fn size_hint(&self) -> (usize, Option<usize>) {
                self.left.size_hint()
            }

            fn count(self) -> usize {
                self.left.len()
            }

            fn last(mut self) -> Option<$item> {
                self.next_back()
            }
        }

        impl<'r, 'a> DoubleEndedIterator for $name<'r, 'a> {
            fn next_back(&mut self) -> Option<$item> {
                self.left.next_back().map(|i| self.recording.$at(i))
            }

            fn nth_back(&mut self, n: usize) -> Option<$item> {
                self.left.nth_back(n).map(|i| self.recording.$at(i))
            }
        }

        impl ExactSizeIterator for $name<'_, '_> {}
        impl FusedIterator for $name<'_, '_> {}
    };
}

walk!(
    /// Units of a recording in order.
    Units,
    Unit<'a>,
    unit_at
);
walk!(
    /// The records of a recording's groups in order.
    Groups,
    Result<Group, Refused>,
    group_at
);

/// A word of row `i`.
fn word(rows: &[u32], i: usize, word: usize) -> usize {
    rows[ROW_WORDS * i + word] as usize
}

fn kind_of_row(rows: &[u32], i: usize) -> Option<Kind> {
    u8::try_from(word(rows, i, AVSPLUS_ROW_CODE)).ok().and_then(Kind::of)
}

fn header_count(rows: &[u32]) -> usize {
    (0..rows.len() / ROW_WORDS)
        .filter(|&i| kind_of_row(rows, i) == Some(Kind::SequenceHeader))
        .count()
}

/// Where the body of row `i` ends. It lies in the stream, its start code stands at its offset, and between that and `from`, where the
/// body before it ends, stand zeros alone.
fn end_of_row(stream: &[u8], rows: &[u32], i: usize, from: usize) -> Result<usize, Refused> {
    let (code, offset) = (word(rows, i, AVSPLUS_ROW_CODE), word(rows, i, AVSPLUS_ROW_OFFSET));
    if row_exists(stream, rows, i)? && (from <= offset && (i > 0 || offset == 0)) {
        let begins = offset + BEFORE_BODY;
        let zeros = stream[from..offset].iter().all(|&byte| byte == 0);
        if zeros && stream[offset..begins - 1] == [0, 0, 1] && usize::from(stream[begins - 1]) == code {
            return Ok(begins + word(rows, i, AVSPLUS_ROW_LENGTH));
        }
    }
    Err(Reason::Malformed.into())
}

/// Begins a group, or goes on with the last one, whose first picture is an I picture.
fn take_unit(groups: &mut Vec<Span>, i: usize, kind: Kind) -> Result<(), Refused> {
    if kind == Kind::SequenceHeader {
        groups.push(Span {
            header: i as u32,
            picture: NO_PICTURE,
        });
        return Ok(());
    }
    let span = groups.last_mut().ok_or(Reason::Malformed)?;
    if kind == Kind::IPicture {
        span.picture = span.picture.min(i as u32);
    }
    Ok(())
}

/// The display extension of a unit in a group's head, where it is one.
fn display_of(unit: &Unit<'_>) -> Result<Option<DisplayExtension>, Refused> {
    match unit.extension()? {
        Some(Extension::Display(display)) => Ok(Some(display)),
        _ => Ok(None),
    }
}

#[cfg(test)]
mod tests {
    use super::*;

    /// The first example's stream and its rows.
    const STREAM: [u8; 33] = [
        0, 0, 1, 0xB0, 0x48, 0x40, 0x0F, 0x00, 0x21, 0xC2, 0x4C, 0xC4, 0xE2, 0x08, 0x00, 0x20, 0x02, 0x00, 0x80, 0, 0, 1, 0xB3,
        0x80, 0, 0, 1, 0x00, 0x80, 0, 0, 1, 0xB1,
    ];
    const ROWS: [u32; 12] = [176, 0, 15, 179, 19, 1, 0, 24, 1, 177, 29, 0];

    fn refused(stream: &[u8], rows: &[u32]) -> bool {
        Recording::new(stream, rows.to_vec()) == Err(Reason::Malformed.into())
    }

    #[test]
    fn rows_that_are_none_of_the_stream_are_an_error() {
        assert_eq!(Recording::new(&STREAM, ROWS.to_vec()), file(&STREAM));
        // A code of no unit, one that is no byte, a slice first, an ending first, no picture, a code that is not the stream's,
        // offsets before and after the start code, a body that ends too early, and one that ends past the stream.
        for (word, wrong) in [
            (3, 0xB4),
            (3, 0x1B3),
            (0, 5),
            (0, 0xB1),
            (3, 0),
            (6, 1),
            (4, 18),
            (4, 20),
            (1, 1),
            (2, 14),
            (11, 1),
        ] {
            let mut rows = ROWS;
            rows[word] = wrong;
            assert!(refused(&STREAM, &rows), "{} {}", word, wrong);
        }
    }

    #[test]
    fn rows_that_are_no_sentence_are_an_error() {
        assert!(refused(&[], &[]));
        assert!(refused(&STREAM[29..], &[177, 0, 0]));
        assert!(refused(&STREAM, &ROWS[..9]));
        // A head and no picture.
        assert!(refused(&STREAM[..19], &ROWS[..3]));
        // A group after the ending.
        let mut rows = [ROWS, ROWS].concat();
        rows.iter_mut().skip(13).step_by(3).for_each(|offset| *offset += 33);
        assert!(refused(&[STREAM, STREAM].concat(), &rows));
    }

    #[test]
    fn a_recording_is_shown_by_its_totals() {
        let recording = file(&STREAM).unwrap();
        assert_eq!(format!("{:?}", recording), "Recording { bytes: 33, units: 4, groups: 1 }");
        assert_eq!(recording.totals(), check(&STREAM).unwrap());
    }
}
