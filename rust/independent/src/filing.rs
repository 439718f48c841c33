//! Section "Grammar of a stream": one walk over the units, from the left.

use crate::layouts::{extension, extension_length, header, is_display, macroblock_rows, Display, Extension, Header};
use crate::refusals::{
    with_bit, without_bit, Fault, Refused, FULL, NO_CODE, NO_ROW, OUT_OF_PLACE, SHORT, SLICE_ORDER, SLICE_ROW, STREAM_LIMIT,
    STUFFING, TOO_LONG, TWICE, UNENDED,
};
use crate::units::{next_from, unit_at, Kind, Unit, START_CODE};

/// Above this vertical size slice codes are not tested.
const TESTED_HEIGHT: u32 = 2800;

/// Where in the grammar the walk stands.
#[derive(Clone, Copy, PartialEq, Eq)]
enum Place {
    Start,
    GroupHead,
    PictureHead,
    Slices,
    AfterEnd,
    AfterEdit,
}

/// The place after a unit of this kind, or none where the grammar has no such unit.
fn follow(place: Place, kind: Kind) -> Option<Place> {
    match (place, kind) {
        (Place::Start | Place::Slices, Kind::SequenceHeader) => Some(Place::GroupHead),
        (Place::GroupHead, Kind::UserData | Kind::Extension) => Some(Place::GroupHead),
        (Place::GroupHead, Kind::IPicture) => Some(Place::PictureHead),
        (Place::PictureHead, Kind::UserData | Kind::Extension) => Some(Place::PictureHead),
        (Place::PictureHead | Place::Slices, Kind::Slice) => Some(Place::Slices),
        (Place::Slices, Kind::IPicture | Kind::OtherPicture) => Some(Place::PictureHead),
        (Place::Slices, Kind::SequenceEnd) => Some(Place::AfterEnd),
        (Place::Slices | Place::AfterEnd, Kind::EditCode) => Some(Place::AfterEdit),
        _ => None,
    }
}

struct Group {
    header: Header,
    display: Option<Display>,
}

/// What the walk knows: its place, the groups so far, the rows so far, the picture's last slice code.
struct Walk {
    place: Place,
    groups: Vec<Group>,
    rows: Vec<[u32; 3]>,
    last_slice: Option<u8>,
}

fn without_trailing_zeros(body: &[u8]) -> usize {
    body.iter().rposition(|&byte| byte != 0).map_or(0, |last| last + 1)
}

/// Picture and slice bodies hold at least one nonzero byte; answers the row's length.
fn some_nonzero(body: &[u8]) -> Result<usize, Fault> {
    match without_trailing_zeros(body) {
        0 => Err(without_bit(SHORT)),
        length => Ok(length),
    }
}

impl Walk {
    fn new() -> Self {
        Walk {
            place: Place::Start,
            groups: Vec::new(),
            rows: Vec::new(),
            last_slice: None,
        }
    }

    /// Takes the unit at `offset`; answers where the next one starts.
    fn step(&mut self, stream: &[u8], offset: usize) -> Result<usize, Fault> {
        let unit = unit_at(stream, offset)?;
        let place = follow(self.place, unit.kind).ok_or(without_bit(OUT_OF_PLACE))?;
        self.place = place;
        let length = self.body(&unit)?;
        self.rows.push([u32::from(unit.code), offset as u32, length as u32]);
        Ok(next_from(stream, offset + START_CODE.len()))
    }

    /// Checks a body against its layout; answers the row's length.
    fn body(&mut self, unit: &Unit) -> Result<usize, Fault> {
        let body = unit.body;
        match unit.kind {
            Kind::Slice => self.slice(unit.code, body),
            Kind::SequenceHeader => self.sequence_header(body),
            Kind::SequenceEnd | Kind::EditCode if body.is_empty() => Ok(0),
            Kind::SequenceEnd | Kind::EditCode => Err(without_bit(STUFFING)),
            Kind::UserData => Ok(body.len()),
            Kind::IPicture | Kind::OtherPicture => {
                self.last_slice = None;
                some_nonzero(body)
            }
            Kind::Extension => self.extension(body),
        }
    }

    fn sequence_header(&mut self, body: &[u8]) -> Result<usize, Fault> {
        let header = header(body)?;
        self.groups.push(Group { header, display: None });
        Ok(without_trailing_zeros(body))
    }

    fn slice(&mut self, code: u8, body: &[u8]) -> Result<usize, Fault> {
        let length = some_nonzero(body)?;
        let group = self.groups.last().ok_or(without_bit(OUT_OF_PLACE))?;
        let tested = group.header.vertical <= TESTED_HEIGHT;
        let in_order = self.last_slice.map_or(true, |last| code > last);
        let in_rows = u32::from(code) < macroblock_rows(&group.header);
        // Order is tested first, and either gives place 0.
        if tested && !in_order {
            return Err(with_bit(SLICE_ORDER, 0));
        }
        if tested && !in_rows {
            return Err(with_bit(SLICE_ROW, 0));
        }
        self.last_slice = Some(code);
        Ok(length)
    }

    fn extension(&mut self, body: &[u8]) -> Result<usize, Fault> {
        let in_head = self.place == Place::GroupHead;
        let group = self.groups.last_mut().ok_or(without_bit(OUT_OF_PLACE))?;
        // SHORT comes before TWICE, and TWICE before the fields.
        extension_length(body, in_head)?;
        if is_display(body, in_head) && group.display.is_some() {
            return Err(without_bit(TWICE));
        }
        match extension(body, in_head)? {
            Extension::Display(display) => group.display = Some(display),
            Extension::Copyright(_) => (),
            Extension::Opaque(_) => return Ok(body.len()),
        }
        Ok(without_trailing_zeros(body))
    }

    fn complete(&self) -> bool {
        matches!(self.place, Place::AfterEnd | Place::AfterEdit)
    }
}

/// Walks the whole stream; all refusals but FULL.
fn walk(stream: &[u8]) -> Result<Walk, Refused> {
    if stream.len() > STREAM_LIMIT {
        return Err(without_bit(TOO_LONG).at(0));
    }
    if !stream.starts_with(&START_CODE) {
        return Err(without_bit(NO_CODE).at(0));
    }
    let mut walk = Walk::new();
    let mut offset = 0;
    while offset < stream.len() {
        let place = offset as u64;
        offset = walk.step(stream, offset).map_err(|fault| fault.at(place))?;
    }
    if !walk.complete() {
        return Err(without_bit(UNENDED).at(stream.len() as u64));
    }
    Ok(walk)
}

/// Checks a stream, whatever rows there are for it; answers the number of units.
pub fn check(stream: &[u8]) -> Result<u64, Refused> {
    Ok(walk(stream)?.rows.len() as u64)
}

/// Files a stream: three words a unit on success, nothing otherwise; answers the number of units.
pub fn file(stream: &[u8], rows: &mut [u32]) -> Result<u64, Refused> {
    let walk = walk(stream)?;
    if rows.len() / 3 < walk.rows.len() {
        return Err(without_bit(FULL).at(0));
    }
    for (words, row) in rows.chunks_exact_mut(3).zip(&walk.rows) {
        words.copy_from_slice(row);
    }
    Ok(walk.rows.len() as u64)
}

/// Group `g` of a stream, counted from 0: its header, and its display extension where given.
pub fn group(stream: &[u8], g: u64) -> Result<(Header, Option<Display>), Refused> {
    let walk = walk(stream)?;
    let index = usize::try_from(g).unwrap_or(usize::MAX);
    match walk.groups.get(index) {
        Some(group) => Ok((group.header, group.display)),
        None => Err(without_bit(NO_ROW).at(0)),
    }
}

#[cfg(test)]
mod tests {
    use super::*;

    const H: [u8; 15] = [
        0x48, 0x40, 0x0F, 0x00, 0x21, 0xC2, 0x4C, 0xC4, 0xE2, 0x08, 0x00, 0x20, 0x02, 0x00, 0x80,
    ];

    /// No stream breaks both rules, since the slice before is in the rows: so the walk is put past them by hand.
    #[test]
    fn order_is_tested_before_row() {
        let mut walk = Walk::new();
        walk.sequence_header(&H).unwrap();
        for (before, number) in [
            (Some(90), SLICE_ORDER),
            (Some(80), SLICE_ORDER),
            (Some(79), SLICE_ROW),
            (None, SLICE_ROW),
        ] {
            walk.last_slice = before;
            assert_eq!(walk.slice(80, &[0x80]), Err(with_bit(number, 0)));
        }
        walk.last_slice = Some(90);
        assert_eq!(walk.slice(67, &[0x80]), Err(with_bit(SLICE_ORDER, 0)));
    }
}
