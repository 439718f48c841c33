//! Section "Units": start codes, unit kinds, and cutting a unit out of a stream.

use crate::refusals::{without_bit, Fault, CUT, OVERLAP, UNKNOWN};

pub(crate) const START_CODE: [u8; 3] = [0, 0, 1];

#[derive(Clone, Copy, Debug, PartialEq, Eq)]
pub(crate) enum Kind {
    Slice,
    SequenceHeader,
    SequenceEnd,
    UserData,
    IPicture,
    Extension,
    OtherPicture,
    EditCode,
}

pub(crate) fn kind_of(code: u8) -> Option<Kind> {
    match code {
        0x00..=0xAF => Some(Kind::Slice),
        0xB0 => Some(Kind::SequenceHeader),
        0xB1 => Some(Kind::SequenceEnd),
        0xB2 => Some(Kind::UserData),
        0xB3 => Some(Kind::IPicture),
        0xB5 => Some(Kind::Extension),
        0xB6 => Some(Kind::OtherPicture),
        0xB7 => Some(Kind::EditCode),
        _ => None,
    }
}

/// The name of a code byte's kind, or none for UNKNOWN.
pub fn kind(code: u8) -> Option<&'static str> {
    kind_of(code).map(|kind| match kind {
        Kind::Slice => "slice",
        Kind::SequenceHeader => "sequence header",
        Kind::SequenceEnd => "sequence end",
        Kind::UserData => "user data",
        Kind::IPicture => "I picture",
        Kind::Extension => "extension",
        Kind::OtherPicture => "P or B picture",
        Kind::EditCode => "edit code",
    })
}

/// The first place from `from` on where 00 00 01 stands, else the stream's length.
pub(crate) fn next_from(stream: &[u8], from: usize) -> usize {
    let rest = match stream.get(from..) {
        Some(rest) => rest,
        None => return stream.len(),
    };
    match rest.windows(3).position(|three| three == START_CODE) {
        Some(distance) => from + distance,
        None => stream.len(),
    }
}

/// The first place from `from` on where 00 00 01 stands, else the stream's length.
pub fn next_start_code(stream: &[u8], from: u64) -> u64 {
    match usize::try_from(from) {
        Ok(from) => next_from(stream, from) as u64,
        Err(_) => stream.len() as u64,
    }
}

pub(crate) struct Unit<'a> {
    pub(crate) code: u8,
    pub(crate) kind: Kind,
    pub(crate) body: &'a [u8],
}

/// The unit whose start code stands at `offset`, or refusal 2, 3 or 4 in that order.
pub(crate) fn unit_at(stream: &[u8], offset: usize) -> Result<Unit<'_>, Fault> {
    let code_place = offset + START_CODE.len();
    let code = *stream.get(code_place).ok_or(without_bit(CUT))?;
    let end = next_from(stream, code_place);
    if end == code_place {
        return Err(without_bit(OVERLAP));
    }
    let kind = kind_of(code).ok_or(without_bit(UNKNOWN))?;
    Ok(Unit {
        code,
        kind,
        body: &stream[code_place + 1..end],
    })
}
