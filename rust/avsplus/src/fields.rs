//! Where each field of a layout lies in its body, most significant bit first, and the values of those that are recorded.

use crate::bodies::{CopyrightExtension, DisplayExtension, Extension, SequenceHeader};

/// A field of a layout. Later versions may say more of it.
#[derive(Debug, Clone, Copy, PartialEq, Eq)]
#[non_exhaustive]
pub struct Field {
    /// Its name.
    pub name: &'static str,
    /// Its first bit in the body, counted from 0.
    pub first_bit: u32,
    /// Its bits.
    pub width: u32,
}

const fn field(name: &'static str, first_bit: u32, width: u32) -> Field {
    Field { name, first_bit, width }
}

/// The sequence header: 112 bits.
pub const SEQUENCE_HEADER: &[Field] = &[
    field("profile", 0, 8),
    field("level", 8, 8),
    field("progressive", 16, 1),
    field("horizontal size", 17, 14),
    field("vertical size", 31, 14),
    field("chroma format", 45, 2),
    field("precision", 47, 3),
    field("aspect", 50, 4),
    field("frame rate code", 54, 4),
    field("bit rate low", 58, 18),
    field("marker", 76, 1),
    field("bit rate high", 77, 12),
    field("low delay", 89, 1),
    field("marker", 90, 1),
    field("buffer size", 91, 18),
    field("reserved", 109, 3),
];

/// The display extension whose colour is not given: 40 bits.
pub const DISPLAY: &[Field] = &[
    field("number", 0, 4),
    field("format", 4, 3),
    field("range", 7, 1),
    field("colour given", 8, 1),
    field("width", 9, 14),
    field("marker", 23, 1),
    field("height", 24, 14),
    field("stereo", 38, 2),
];

/// The display extension whose colour is given: 64 bits.
pub const DISPLAY_WITH_COLOUR: &[Field] = &[
    field("number", 0, 4),
    field("format", 4, 3),
    field("range", 7, 1),
    field("colour given", 8, 1),
    field("primaries", 9, 8),
    field("transfer", 17, 8),
    field("matrix", 25, 8),
    field("width", 33, 14),
    field("marker", 47, 1),
    field("height", 48, 14),
    field("stereo", 62, 2),
];

/// The copyright extension: 88 bits.
pub const COPYRIGHT: &[Field] = &[
    field("number", 0, 4),
    field("flag", 4, 1),
    field("owner", 5, 8),
    field("original", 13, 1),
    field("reserved", 14, 7),
    field("marker", 21, 1),
    field("part one", 22, 20),
    field("marker", 42, 1),
    field("part two", 43, 22),
    field("marker", 65, 1),
    field("part three", 66, 22),
];

/// The first field of a layout with a name.
///
/// ```
/// use avsplus::fields;
///
/// let field = fields::find(fields::SEQUENCE_HEADER, "vertical size").unwrap();
/// assert_eq!((field.first_bit, field.width), (31, 14));
/// assert_eq!(fields::find(fields::SEQUENCE_HEADER, "marker").unwrap().first_bit, 76);
/// assert_eq!(fields::find(fields::DISPLAY, "primaries"), None);
/// ```
pub fn find(layout: &[Field], name: &str) -> Option<Field> {
    layout.iter().copied().find(|field| field.name == name)
}

/// The low part of a bit rate has so many values: 18 bits.
const BIT_RATE_LOW: u32 = 1 << 18;
/// The second and the third part of a copyright number have so many bits.
const COPYRIGHT_PART: u32 = 22;

/// The fields of a sequence header that are recorded, with their values, in bit order. The two parts of the bit rate follow from
/// it, as it from them.
///
/// ```
/// use avsplus::fields;
///
/// let body = [0x48, 0x40, 0x0F, 0x00, 0x21, 0xC2, 0x4C, 0xC4, 0xE2, 0x08, 0x00, 0x20, 0x02, 0x00, 0x80];
/// let fields = fields::of_header(&avsplus::sequence_header(&body)?);
/// let (field, value) = fields[3];
/// assert_eq!((field.name, field.first_bit, field.width, value), ("horizontal size", 17, 14, 1920));
/// # Ok::<(), avsplus::Refused>(())
/// ```
pub fn of_header(header: &SequenceHeader) -> Vec<(Field, u64)> {
    let values = [
        ("profile", header.profile),
        ("level", header.level),
        ("progressive", u32::from(header.progressive)),
        ("horizontal size", header.horizontal_size),
        ("vertical size", header.vertical_size),
        ("chroma format", header.chroma_format),
        ("precision", header.precision),
        ("aspect", header.aspect),
        ("frame rate code", header.frame_rate_code),
        ("bit rate low", header.bit_rate % BIT_RATE_LOW),
        ("bit rate high", header.bit_rate / BIT_RATE_LOW),
        ("low delay", u32::from(header.low_delay)),
        ("buffer size", header.buffer_size),
    ];
    placed(SEQUENCE_HEADER, &values.map(|(name, value)| (name, value.into())))
}

/// The same of a display extension: those of its colour only where it is given.
pub fn of_display(display: &DisplayExtension) -> Vec<(Field, u64)> {
    let number = Extension::Display(*display).number();
    let mut values = vec![
        ("number", number.into()),
        ("format", display.format),
        ("range", display.range),
        ("colour given", display.colour.is_some().into()),
    ];
    let mut layout = DISPLAY;
    if let Some(colour) = display.colour {
        layout = DISPLAY_WITH_COLOUR;
        values.extend([
            ("primaries", colour.primaries),
            ("transfer", colour.transfer),
            ("matrix", colour.matrix),
        ]);
    }
    values.extend([
        ("width", display.width),
        ("height", display.height),
        ("stereo", display.stereo),
    ]);
    let values: Vec<(&str, u64)> = values.into_iter().map(|(name, value)| (name, value.into())).collect();
    placed(layout, &values)
}

/// The same of a copyright extension. The three parts of its number follow from it, as it from them.
pub fn of_copyright(copyright: &CopyrightExtension) -> Vec<(Field, u64)> {
    let part = (1 << COPYRIGHT_PART) - 1;
    let values = [
        ("number", Extension::Copyright(*copyright).number().into()),
        ("flag", copyright.flag.into()),
        ("owner", copyright.owner.into()),
        ("original", copyright.original.into()),
        ("part one", copyright.number >> (2 * COPYRIGHT_PART)),
        ("part two", copyright.number >> COPYRIGHT_PART & part),
        ("part three", copyright.number & part),
    ];
    placed(COPYRIGHT, &values)
}

/// Each value with the field of its name.
fn placed(layout: &[Field], values: &[(&str, u64)]) -> Vec<(Field, u64)> {
    let placed = values.iter().filter_map(|&(name, value)| Some((find(layout, name)?, value)));
    placed.collect()
}

#[cfg(test)]
mod tests {
    use super::*;

    /// Each field must begin where the one before it ends.
    fn total(layout: &[Field]) -> u32 {
        layout.iter().fold(0, |bit, field| {
            assert_eq!(field.first_bit, bit, "{}", field.name);
            bit + field.width
        })
    }

    #[test]
    fn first_bits_follow_from_widths() {
        assert_eq!(total(SEQUENCE_HEADER), 112);
        assert_eq!(total(DISPLAY), 40);
        assert_eq!(total(DISPLAY_WITH_COLOUR), 64);
        assert_eq!(total(COPYRIGHT), 88);
    }
}
