//! Section "Layouts": sequence header, display extension and copyright extension.

use crate::bits::{bit, Fields};
use crate::refusals::{
    with_bit, without_bit, Fault, ASPECT, CHROMA, COPYRIGHT_NUMBER, COPYRIGHT_OWNER, HEIGHT, MATRIX, PRECISION, RATE, SHORT,
    STEREO, TRANSFER, WIDTH,
};

#[derive(Clone, Copy, Debug, PartialEq, Eq)]
pub struct Header {
    pub profile: u32,
    pub level: u32,
    pub progressive: u32,
    pub horizontal: u32,
    pub vertical: u32,
    pub chroma: u32,
    pub precision: u32,
    pub aspect: u32,
    pub rate: u32,
    pub bitrate: u32,
    pub delay: u32,
    pub buffer: u32,
}

#[derive(Clone, Copy, Debug, PartialEq, Eq)]
pub struct Display {
    pub format: u32,
    pub range: u32,
    /// Primaries, transfer and matrix, where given.
    pub colour: Option<[u32; 3]>,
    pub width: u32,
    pub height: u32,
    pub stereo: u32,
}

#[derive(Clone, Copy, Debug, PartialEq, Eq)]
pub struct Copyright {
    pub flag: u32,
    pub owner: u32,
    pub original: u32,
    pub number: u64,
}

#[derive(Clone, Copy, Debug, PartialEq, Eq)]
pub enum Extension {
    Display(Display),
    Copyright(Copyright),
    Opaque(u32),
}

const HEADER_BYTES: usize = 15;
const DISPLAY_BYTES: usize = 6;
const COLOUR_DISPLAY_BYTES: usize = 9;
const COPYRIGHT_BYTES: usize = 12;
/// The colour given bit follows number 4, format 3 and range 1.
const COLOUR_GIVEN_BIT: u64 = 8;

/// A sequence header's record, or the refusal of its body.
pub fn header(body: &[u8]) -> Result<Header, Fault> {
    if body.len() < HEADER_BYTES {
        return Err(without_bit(SHORT));
    }
    let mut fields = Fields::new(body);
    let profile = fields.number(8)?;
    let level = fields.number(8)?;
    let progressive = fields.number(1)?;
    let horizontal = fields.judged(14, WIDTH, |size| size != 0)?;
    let vertical = fields.judged(14, HEIGHT, |size| size != 0)?;
    let chroma = fields.judged(2, CHROMA, |chroma| chroma == 1 || chroma == 2)?;
    let precision = fields.judged(3, PRECISION, |precision| precision == 1)?;
    let aspect = fields.judged(4, ASPECT, |aspect| (1..=4).contains(&aspect))?;
    let rate = fields.judged(4, RATE, |rate| (1..=8).contains(&rate))?;
    let low = fields.number(18)?;
    fields.marker()?;
    let high = fields.number(12)?;
    let delay = fields.number(1)?;
    fields.marker()?;
    let buffer = fields.number(18)?;
    fields.number(3)?; // reserved: anything
    fields.stuffing()?;
    let bitrate = high * 262_144 + low;
    Ok(Header {
        profile,
        level,
        progressive,
        horizontal,
        vertical,
        chroma,
        precision,
        aspect,
        rate,
        bitrate,
        delay,
        buffer,
    })
}

/// The extension's number, or SHORT for an empty body.
fn extension_number(body: &[u8]) -> Result<u32, Fault> {
    body.first().map(|byte| u32::from(byte >> 4)).ok_or(without_bit(SHORT))
}

/// Number 2 is the display extension only in a group's head.
pub(crate) fn is_display(body: &[u8], in_head: bool) -> bool {
    in_head && extension_number(body) == Ok(2)
}

/// SHORT unless the extension body has the bytes its layout asks for.
pub(crate) fn extension_length(body: &[u8], in_head: bool) -> Result<(), Fault> {
    let number = extension_number(body)?;
    let colour = bit(body, COLOUR_GIVEN_BIT) == Some(true);
    let wanted = match number {
        2 if in_head && colour => COLOUR_DISPLAY_BYTES,
        2 if in_head => DISPLAY_BYTES,
        4 => COPYRIGHT_BYTES,
        _ => 1,
    };
    if body.len() < wanted {
        return Err(without_bit(SHORT));
    }
    Ok(())
}

/// Primaries, transfer and matrix; primaries are not judged.
fn colour(fields: &mut Fields) -> Result<[u32; 3], Fault> {
    let primaries = fields.number(8)?;
    let transfer = fields.judged(8, TRANSFER, |transfer| transfer != 0 && transfer != 3 && transfer <= 10)?;
    let matrix = fields.judged(8, MATRIX, |matrix| matrix != 0 && matrix != 3 && matrix <= 7)?;
    Ok([primaries, transfer, matrix])
}

fn display(body: &[u8]) -> Result<Display, Fault> {
    let mut fields = Fields::new(body);
    fields.number(4)?; // the extension's number
    let format = fields.number(3)?;
    let range = fields.number(1)?;
    let colour = match fields.number(1)? {
        1 => Some(colour(&mut fields)?),
        _ => None,
    };
    let width = fields.number(14)?;
    fields.marker()?;
    let height = fields.number(14)?;
    let stereo = fields.judged(2, STEREO, |stereo| stereo != 3)?;
    fields.stuffing()?;
    Ok(Display {
        format,
        range,
        colour,
        width,
        height,
        stereo,
    })
}

fn copyright(body: &[u8]) -> Result<Copyright, Fault> {
    let mut fields = Fields::new(body);
    fields.number(4)?; // the extension's number
    let flag = fields.number(1)?;
    let owner_bit = fields.place();
    let owner = fields.number(8)?;
    let original = fields.number(1)?;
    fields.number(7)?; // reserved: anything
    fields.marker()?;
    let number_bit = fields.place(); // that of part one
    let one = u64::from(fields.number(20)?);
    fields.marker()?;
    let two = u64::from(fields.number(22)?);
    fields.marker()?;
    let three = u64::from(fields.number(22)?);
    let number = (one << 44) + (two << 22) + three;
    // The document rules on these three only after the last field.
    if flag == 0 && owner != 0 {
        return Err(with_bit(COPYRIGHT_OWNER, owner_bit));
    }
    if owner == 0 && number != 0 {
        return Err(with_bit(COPYRIGHT_NUMBER, number_bit));
    }
    fields.stuffing()?;
    Ok(Copyright {
        flag,
        owner,
        original,
        number,
    })
}

/// An extension's record, or the refusal of its body.
pub fn extension(body: &[u8], in_head: bool) -> Result<Extension, Fault> {
    extension_length(body, in_head)?;
    match extension_number(body)? {
        2 if in_head => display(body).map(Extension::Display),
        4 => copyright(body).map(Extension::Copyright),
        number => Ok(Extension::Opaque(number)),
    }
}

/// How many parts of so many samples a size has, the last of them whole or not; in 64 bits, since a record made by hand may
/// hold any number.
fn parts(size: u32, samples: u64) -> u32 {
    ((u64::from(size) + samples - 1) / samples) as u32
}

pub fn macroblock_columns(h: &Header) -> u32 {
    parts(h.horizontal, 16)
}

/// When progressive is 0, 2 x ((vertical size + 31) / 32); otherwise (vertical size + 15) / 16.
pub fn macroblock_rows(h: &Header) -> u32 {
    match h.progressive {
        0 => 2 * parts(h.vertical, 32),
        _ => parts(h.vertical, 16),
    }
}

/// Frame rate codes 1 to 8, as numerator and denominator.
const FRAME_RATES: [(u32, u32); 8] = [
    (24_000, 1001),
    (24, 1),
    (25, 1),
    (30_000, 1001),
    (30, 1),
    (50, 1),
    (60_000, 1001),
    (60, 1),
];

pub fn frame_rate(code: u32) -> Option<(u32, u32)> {
    let index = usize::try_from(code).ok()?.checked_sub(1)?;
    FRAME_RATES.get(index).copied()
}

/// Aspect 1 says square samples, so it gives no ratio.
pub fn display_ratio(aspect: u32) -> Option<(u32, u32)> {
    match aspect {
        2 => Some((4, 3)),
        3 => Some((16, 9)),
        4 => Some((221, 100)),
        _ => None,
    }
}
