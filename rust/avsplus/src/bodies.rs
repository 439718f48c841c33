//! Bodies: sequence headers and extensions, and the ratios their codes stand for.

use std::fmt;

use avsplus_sys::{Answer, AVSPLUS_EXTENSION_WITH_COLOUR, AVSPLUS_HEADER_NUMBERS, AVSPLUS_RATIO_NUMBERS};

use crate::calls;
use crate::refused::{answered, Reason, Refused};

/// A fraction.
#[derive(Debug, Clone, Copy, PartialEq, Eq, Hash)]
pub struct Ratio {
    /// Above the line.
    pub numerator: u32,
    /// Below the line, never 0.
    pub denominator: u32,
}

impl fmt::Display for Ratio {
    fn fmt(&self, f: &mut fmt::Formatter<'_>) -> fmt::Result {
        f.pad(&format!("{}/{}", self.numerator, self.denominator))
    }
}

/// What an aspect says of the display.
#[derive(Debug, Clone, Copy, PartialEq, Eq, Hash)]
pub enum DisplayRatio {
    /// Samples are square. Aspect 1, which gives no ratio.
    SquareSamples,
    /// The display's ratio. Aspects 2 to 4.
    Ratio(Ratio),
}

/// The aspect of square samples.
const SQUARE: u32 = 1;

impl fmt::Display for DisplayRatio {
    fn fmt(&self, f: &mut fmt::Formatter<'_>) -> fmt::Result {
        match self {
            DisplayRatio::SquareSamples => f.pad("square samples"),
            DisplayRatio::Ratio(ratio) => ratio.fmt(f),
        }
    }
}

/// The record of a sequence header. The last four fields are worked out from the others.
#[derive(Debug, Clone, Copy, PartialEq, Eq, Hash)]
pub struct SequenceHeader {
    /// Profile number, recorded and not judged.
    pub profile: u32,
    /// Level number, recorded and not judged.
    pub level: u32,
    /// Whether all frames are progressive.
    pub progressive: bool,
    /// Samples in a line, never 0.
    pub horizontal_size: u32,
    /// Lines of a frame, never 0.
    pub vertical_size: u32,
    /// 1 for 4:2:0, 2 for 4:2:2.
    pub chroma_format: u32,
    /// Sample precision: 1, eight bits.
    pub precision: u32,
    /// Aspect, 1 to 4.
    pub aspect: u32,
    /// Frame rate code, 1 to 8.
    pub frame_rate_code: u32,
    /// Bit rate as the stream has it, in the standard's unit; put together from its two parts: high * 262,144 + low.
    pub bit_rate: u32,
    /// Whether the sequence is coded for low delay.
    pub low_delay: bool,
    /// Buffer size as the stream has it, in the standard's unit.
    pub buffer_size: u32,
    /// Macroblocks across: (horizontal size + 15) / 16, whole division.
    pub macroblock_columns: u32,
    /// Macroblocks down: 2 * ((vertical size + 31) / 32), or (vertical size + 15) / 16 where `progressive` is true.
    pub macroblock_rows: u32,
    /// Frames a second, by the frame rate code.
    pub frame_rate: Ratio,
    /// What the aspect says.
    pub display_ratio: DisplayRatio,
}

impl SequenceHeader {
    /// Of its numbers and of what its codes stand for. MALFORMED for another count of numbers, and for codes that a good header
    /// has not.
    pub(crate) fn from_numbers(numbers: &[u64]) -> Result<SequenceHeader, Refused> {
        let numbers: [u32; AVSPLUS_HEADER_NUMBERS] = words(numbers)?;
        let [profile, level, progressive, horizontal_size, vertical_size, chroma_format, precision, rest @ ..] = numbers;
        let [aspect, frame_rate_code, bit_rate, low_delay, buffer_size, macroblock_columns, macroblock_rows] = rest;
        Ok(SequenceHeader {
            profile,
            level,
            progressive: truth(progressive)?,
            horizontal_size,
            vertical_size,
            chroma_format,
            precision,
            aspect,
            frame_rate_code,
            bit_rate,
            low_delay: truth(low_delay)?,
            buffer_size,
            macroblock_columns,
            macroblock_rows,
            frame_rate: frame_rate(frame_rate_code)?.ok_or(Reason::Malformed)?,
            display_ratio: display_ratio(aspect)?.ok_or(Reason::Malformed)?,
        })
    }
}

/// The colour of a display extension.
#[derive(Debug, Clone, Copy, PartialEq, Eq, Hash)]
pub struct Colour {
    /// Colour primaries, recorded and not judged.
    pub primaries: u32,
    /// Transfer characteristics.
    pub transfer: u32,
    /// Matrix coefficients.
    pub matrix: u32,
}

/// The record of a display extension.
#[derive(Debug, Clone, Copy, PartialEq, Eq, Hash)]
pub struct DisplayExtension {
    /// Video format, recorded and not judged.
    pub format: u32,
    /// Sample range, 0 or 1.
    pub range: u32,
    /// The colour, where it is given.
    pub colour: Option<Colour>,
    /// Display width.
    pub width: u32,
    /// Display height.
    pub height: u32,
    /// Stereo packing mode, 0 to 2.
    pub stereo: u32,
}

impl DisplayExtension {
    /// Of its numbers alone, or with those of its colour after them; MALFORMED for another count.
    pub(crate) fn from_numbers(numbers: &[u64]) -> Result<DisplayExtension, Refused> {
        let (display, colour) = numbers.split_at(numbers.len().min(5));
        let [format, range, width, height, stereo] = words(display)?;
        let colour = match colour {
            [] => None,
            given => {
                let [primaries, transfer, matrix] = words(given)?;
                Some(Colour {
                    primaries,
                    transfer,
                    matrix,
                })
            }
        };
        Ok(DisplayExtension {
            format,
            range,
            colour,
            width,
            height,
            stereo,
        })
    }
}

/// The record of a copyright extension.
#[derive(Debug, Clone, Copy, PartialEq, Eq, Hash)]
pub struct CopyrightExtension {
    /// Whether copyright is claimed.
    pub flag: bool,
    /// Who registered it, 0 for nobody.
    pub owner: u32,
    /// Whether this is the original.
    pub original: bool,
    /// The copyright number, put together from its three parts: one * 2^44 + two * 2^22 + three.
    pub number: u64,
}

/// The number of a display extension.
const DISPLAY: u64 = 2;
/// The number of a copyright extension.
const COPYRIGHT: u64 = 4;

/// What an extension's body says.
#[derive(Debug, Clone, Copy, PartialEq, Eq, Hash)]
pub enum Extension {
    /// A display extension.
    Display(DisplayExtension),
    /// A copyright extension.
    Copyright(CopyrightExtension),
    /// Any other, by its number, 0 to 15.
    Opaque(u8),
}

impl Extension {
    /// Its number, which the first four bits of the body say: 2 for a display extension, 4 for a copyright extension.
    pub fn number(&self) -> u8 {
        match self {
            Extension::Display(_) => DISPLAY as u8,
            Extension::Copyright(_) => COPYRIGHT as u8,
            Extension::Opaque(number) => *number,
        }
    }

    /// Of its numbers, whose count says which it is; MALFORMED for a count of no extension.
    fn from_numbers(numbers: &[u64]) -> Result<Extension, Refused> {
        match *numbers {
            [number] => {
                let number = u8::try_from(number).map_err(|_| Reason::Malformed)?;
                Ok(Extension::Opaque(number))
            }
            [COPYRIGHT, flag, owner, original, number] => {
                let [flag, owner, original] = words(&[flag, owner, original])?;
                Ok(Extension::Copyright(CopyrightExtension {
                    flag: truth(flag)?,
                    owner,
                    original: truth(original)?,
                    number,
                }))
            }
            [DISPLAY, ref display @ ..] => DisplayExtension::from_numbers(display).map(Extension::Display),
            _ => Err(Reason::Malformed.into()),
        }
    }
}

impl fmt::Display for Extension {
    /// Which one it is, such as "display extension" or "extension 7, opaque".
    fn fmt(&self, f: &mut fmt::Formatter<'_>) -> fmt::Result {
        match self {
            Extension::Display(_) => f.pad("display extension"),
            Extension::Copyright(_) => f.pad("copyright extension"),
            Extension::Opaque(number) => f.pad(&format!("extension {}, opaque", number)),
        }
    }
}

/// Where an extension stands.
#[derive(Debug, Clone, Copy, PartialEq, Eq, Hash)]
pub enum Scope {
    /// In a group's head, before its first picture.
    Head,
    /// After a picture header.
    Picture,
}

/// The frame rate of a code: none outside 1 to 8.
///
/// ```
/// assert_eq!(avsplus::frame_rate(4)?.unwrap().to_string(), "30000/1001");
/// assert_eq!(avsplus::frame_rate(9)?, None);
/// # Ok::<(), avsplus::Refused>(())
/// ```
pub fn frame_rate(code: u32) -> Result<Option<Ratio>, Refused> {
    ratio(|numbers| calls::frame_rate(code, numbers))
}

/// What an aspect says of the display: none for what is no aspect, which is outside 1 to 4.
///
/// ```
/// use avsplus::DisplayRatio;
///
/// assert_eq!(avsplus::display_ratio(3)?.unwrap().to_string(), "16/9");
/// assert_eq!(avsplus::display_ratio(1)?, Some(DisplayRatio::SquareSamples));
/// assert_eq!(avsplus::display_ratio(5)?, None);
/// # Ok::<(), avsplus::Refused>(())
/// ```
pub fn display_ratio(aspect: u32) -> Result<Option<DisplayRatio>, Refused> {
    let ratio = ratio(|numbers| calls::display_ratio(aspect, numbers))?;
    Ok(match (aspect, ratio) {
        (_, Some(ratio)) => Some(DisplayRatio::Ratio(ratio)),
        (SQUARE, None) => Some(DisplayRatio::SquareSamples),
        (_, None) => None,
    })
}

/// Reads the body of a sequence header.
///
/// ```
/// use avsplus::{JudgedField, Reason};
///
/// let mut body = [0x48, 0x40, 0x0F, 0x00, 0x21, 0xC2, 0x4C, 0xC4, 0xE2, 0x08, 0x00, 0x20, 0x02, 0x00, 0x80];
/// let header = avsplus::sequence_header(&body)?;
/// assert_eq!((header.horizontal_size, header.vertical_size, header.bit_rate), (1920, 1080, 20_000));
/// assert_eq!((header.macroblock_columns, header.macroblock_rows), (120, 68));
/// assert_eq!((header.frame_rate.to_string(), header.display_ratio.to_string()), ("25/1".into(), "16/9".into()));
///
/// body[14] = 0x00;
/// assert_eq!(avsplus::sequence_header(&body).unwrap_err().reason, Reason::Stuffing);
///
/// // Frame rate code 0, which comes before the body's end.
/// body[7] &= 0x3F;
/// let refused = avsplus::sequence_header(&body).unwrap_err();
/// assert_eq!(refused.reason, Reason::ValueOf { field: JudgedField::Rate, bit: 54 });
/// assert_eq!(refused.to_string(), "VALUE of rate (25) at bit 54 of the body");
/// # Ok::<(), avsplus::Refused>(())
/// ```
pub fn sequence_header(body: &[u8]) -> Result<SequenceHeader, Refused> {
    let call = |numbers: &mut [u64]| calls::sequence_header(body, numbers);
    read(&mut [0; AVSPLUS_HEADER_NUMBERS], call, SequenceHeader::from_numbers)
}

/// Reads the body of an extension. Number 2 is a display extension only in a group's head.
///
/// ```
/// use avsplus::{Extension, Reason, Scope};
///
/// // Format 1, range 0, colour not given, 1920 by 1080, stereo 0.
/// let body = [0x22, 0x0F, 0x01, 0x10, 0xE0, 0x80];
/// match avsplus::extension(&body, Scope::Head)? {
///     Extension::Display(display) => {
///         assert_eq!((display.width, display.height), (1920, 1080));
///         assert_eq!(display.colour, None);
///     }
///     other => panic!("{:?}", other),
/// }
/// assert_eq!(avsplus::extension(&body, Scope::Picture)?, Extension::Opaque(2));
/// assert_eq!(avsplus::extension(&[], Scope::Picture).unwrap_err().reason, Reason::Short);
/// # Ok::<(), avsplus::Refused>(())
/// ```
pub fn extension(body: &[u8], scope: Scope) -> Result<Extension, Refused> {
    let call = |numbers: &mut [u64]| calls::extension(body, scope == Scope::Head, numbers);
    read(&mut [0; AVSPLUS_EXTENSION_WITH_COLOUR], call, Extension::from_numbers)
}

/// So many numbers of at most 32 bits, as all are that bodies hold but the copyright number.
fn words<const N: usize>(numbers: &[u64]) -> Result<[u32; N], Refused> {
    let mut words = [0; N];
    if numbers.len() != N {
        return Err(Reason::Malformed.into());
    }
    for (word, &number) in words.iter_mut().zip(numbers) {
        *word = u32::try_from(number).map_err(|_| Reason::Malformed)?;
    }
    Ok(words)
}

/// A field of one bit.
fn truth(number: u32) -> Result<bool, Refused> {
    match number {
        0 => Ok(false),
        1 => Ok(true),
        _ => Err(Reason::Malformed.into()),
    }
}

/// Lends numbers to a call and makes a record of those that it hands over.
fn read<T>(
    numbers: &mut [u64],
    call: impl FnOnce(&mut [u64]) -> Result<Answer, Refused>,
    record: impl FnOnce(&[u64]) -> Result<T, Refused>,
) -> Result<T, Refused> {
    let count = answered(call(numbers)?)?;
    record(numbers.get(..count).ok_or(Reason::Malformed)?)
}

/// A ratio, where the call hands one over.
fn ratio(call: impl FnOnce(&mut [u64]) -> Result<Answer, Refused>) -> Result<Option<Ratio>, Refused> {
    let record = |numbers: &[u64]| match numbers {
        [] => Ok(None),
        given => {
            let [numerator, denominator] = words(given)?;
            match denominator {
                0 => Err(Reason::Malformed.into()),
                _ => Ok(Some(Ratio { numerator, denominator })),
            }
        }
    };
    read(&mut [0; AVSPLUS_RATIO_NUMBERS], call, record)
}

#[cfg(test)]
mod tests {
    use avsplus_sys::AVSPLUS_NO_BIT;

    use super::*;
    use crate::refused::JudgedField;

    /// Counts that have a record, where the first number is this and all others 1; `make` says whether one is made of so many.
    fn counts(first: u64, make: impl Fn(&[u64]) -> bool) -> Vec<usize> {
        let mut numbers = [1; 30];
        numbers[0] = first;
        (0..30).filter(|&count| make(&numbers[..count])).collect()
    }

    #[test]
    fn other_counts_are_no_records() {
        assert_eq!(counts(1, |n| SequenceHeader::from_numbers(n).is_ok()), [14]);
        assert_eq!(counts(1, |n| DisplayExtension::from_numbers(n).is_ok()), [5, 8]);
        assert_eq!(counts(2, |n| Extension::from_numbers(n).is_ok()), [1, 6, 9]);
        assert_eq!(counts(4, |n| Extension::from_numbers(n).is_ok()), [1, 5]);
        assert_eq!(counts(9, |n| Extension::from_numbers(n).is_ok()), [1]);
    }

    #[test]
    fn numbers_that_do_not_fit_are_no_record() {
        let wide = u64::from(u32::MAX) + 1;
        assert_eq!(words(&[1, wide]), Err::<[u32; 2], _>(Reason::Malformed.into()));
        assert_eq!(Extension::from_numbers(&[256]), Err(Reason::Malformed.into()));
        assert_eq!(Extension::from_numbers(&[4, 2, 0, 0, 0]), Err(Reason::Malformed.into()));
        // Flags that are no bit, an aspect and a frame rate code that a good header has not.
        for (index, wrong) in [(2, 2), (10, 2), (7, 5), (8, 9)] {
            let mut header = [1; 14];
            header[index] = wrong;
            assert_eq!(SequenceHeader::from_numbers(&header), Err(Reason::Malformed.into()));
        }
    }

    #[test]
    fn an_answer_of_no_form_is_an_error() {
        for (count, bit) in [
            (0, AVSPLUS_NO_BIT),
            (2, AVSPLUS_NO_BIT),
            (2, 0),
            (3, AVSPLUS_NO_BIT),
            (usize::MAX, AVSPLUS_NO_BIT),
        ] {
            let answer = Answer {
                status: 0,
                offset: 0,
                count,
                bit,
            };
            let read = read(&mut [0; 2], |_| Ok(answer), words::<2>);
            let expected = if (count, bit) == (2, AVSPLUS_NO_BIT) {
                Ok([0, 0])
            } else {
                Err(Reason::Malformed.into())
            };
            assert_eq!(read, expected);
        }
    }

    #[test]
    fn aspects_and_what_they_say() {
        let body = |aspect: u8| {
            let mut body = [
                0x48, 0x40, 0x0F, 0x00, 0x21, 0xC2, 0x40, 0xC4, 0xE2, 0x08, 0x00, 0x20, 0x02, 0x00, 0x80,
            ];
            body[6] |= aspect << 2;
            body
        };
        let says = |aspect| sequence_header(&body(aspect)).map(|header| header.display_ratio.to_string());
        assert_eq!(
            [1, 2, 3, 4].map(|aspect| says(aspect).unwrap()),
            ["square samples", "4/3", "16/9", "221/100"]
        );
        let refused = Err(Refused::from(Reason::ValueOf {
            field: JudgedField::Aspect,
            bit: 50,
        }));
        assert_eq!((says(0), says(5)), (refused.clone(), refused));
    }
}
