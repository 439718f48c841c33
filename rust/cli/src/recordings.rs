//! The commands on recordings.

use std::io::Write;

use avsplus::{JudgedField, Reason, Recording, Refused};

use crate::args::Args;
use crate::failure::{Failure, Refusal, Status, Written};
use crate::files::read_stream;
use crate::json::{self, write_hex, Object};
use crate::sheet::{group_json, group_text, unit_json, units_text};

/// The answer to a good recording.
const FILED: &str = "FILED";
/// How many bytes of a refused recording are shown at most, from where the refusal stands on.
const SHOWN: usize = 16;
/// Bytes of a unit before its body: 00 00 01 and the code byte.
const BEFORE_BODY: usize = 4;

/// Files a recording, whose refusal says what it means for this one.
pub fn file_stream(stream: &[u8]) -> Result<Recording<'_>, Failure> {
    avsplus::file(stream).map_err(|refused| match Failure::from(refused) {
        Failure::Refused(refusal) => Failure::Refused(meaning_for(stream, refusal)),
        other => other,
    })
}

fn meaning_for(stream: &[u8], refusal: Refusal) -> Refusal {
    let meaning = match (refusal.reason(), stream) {
        (Reason::NoCode, []) => "there are no bytes".to_string(),
        (Reason::NoCode, bytes) => format!("it begins with {}, not with 00 00 01", spaced(&bytes[..bytes.len().min(3)])),
        (Reason::TooLong, _) => format!("{} of {}", refusal.meaning, avsplus::LONGEST_STREAM),
        _ => return refusal,
    };
    refusal.meaning(meaning)
}

/// Bytes in hexadecimal, with spaces between them.
fn spaced(bytes: &[u8]) -> String {
    let bytes: Vec<String> = bytes.iter().map(|byte| format!("{:02X}", byte)).collect();
    bytes.join(" ")
}

/// `file REC`: the sheet.
pub fn file(args: &Args, output: &mut dyn Write) -> Result<Status, Failure> {
    let stream = read_stream(args.operand(0))?;
    let recording = match file_stream(&stream) {
        Ok(recording) => recording,
        Err(Failure::Refused(refusal)) => return refused_sheet(output, &stream, &refusal, args.json()),
        Err(other) => return Err(other),
    };
    match args.json() {
        true => sheet_json(output, &recording)?,
        false => sheet_text(output, &recording)?,
    }
    Ok(Status::Done)
}

fn sheet_json(output: &mut dyn Write, recording: &Recording<'_>) -> Written {
    json::line(output, |object| {
        object.done(FILED)?;
        object.put("bytes", recording.stream().len())?;
        object.objects("units", recording.units(), unit_json)?;
        object.objects("groups", 0..recording.groups().len(), |o, g| group_json(o, recording, g))
    })
}

fn sheet_text(output: &mut dyn Write, recording: &Recording<'_>) -> Written {
    let groups = recording.groups().len();
    writeln!(output, "answer: {} (0)", FILED)?;
    writeln!(output, "bytes: {}", recording.stream().len())?;
    writeln!(output, "units: {}", recording.units().len())?;
    writeln!(output, "groups: {}\n", groups)?;
    units_text(output, recording)?;
    for g in 0..groups {
        writeln!(output)?;
        group_text(output, recording, g)?;
    }
    Ok(())
}

/// The bytes where a refusal stands. TOO LONG is about their number alone.
fn bytes_there<'a>(stream: &'a [u8], refusal: &Refusal) -> &'a [u8] {
    let there = match (refusal.reason(), refusal.refused.offset) {
        (Reason::TooLong, _) | (_, None) => &[],
        (_, Some(offset)) => stream.get(offset..).unwrap_or_default(),
    };
    &there[..there.len().min(SHOWN)]
}

/// The bit of a body that a refusal carries, and the byte of the recording that it lies in.
struct Bit {
    /// In the body.
    bit: usize,
    /// Of its byte, in the recording.
    offset: usize,
    /// What is in that byte.
    byte: u8,
}

impl Bit {
    /// None where the refusal carries no bit, and of a slice, which is refused for the code byte before its body.
    fn of(stream: &[u8], refusal: &Refusal) -> Option<Bit> {
        if let Some(JudgedField::SliceOrder | JudgedField::SliceRow) = refusal.reason().field() {
            return None;
        }
        let bit = refusal.reason().bit()?;
        let offset = refusal.refused.offset? + BEFORE_BODY + bit / 8;
        let byte = *stream.get(offset)?;
        Some(Bit { bit, offset, byte })
    }

    fn text(&self, output: &mut dyn Write) -> Written {
        let value = 0x80_u8 >> (self.bit % 8);
        Ok(writeln!(
            output,
            "bit: {} is that of value {:02X} in byte {}, which is {:02X}",
            self.bit, value, self.offset, self.byte
        )?)
    }

    fn json(&self, object: &mut Object) -> Written {
        object.put("offset", self.offset)?;
        object.hex("hex", &[self.byte])
    }
}

/// The sheet of a refused recording is a result too, so it goes to standard output. Of a recording that is TOO LONG not all bytes
/// were read, so how many it has is not known.
fn refused_sheet(output: &mut dyn Write, stream: &[u8], refusal: &Refusal, json: bool) -> Result<Status, Failure> {
    let (there, bit) = (bytes_there(stream, refusal), Bit::of(stream, refusal));
    let length = if stream.len() > avsplus::LONGEST_STREAM {
        None
    } else {
        Some(stream.len())
    };
    if json {
        json::line(output, |object| {
            object.refused(refusal)?;
            object.put("bytes", length)?;
            object.hex("there", there)?;
            match &bit {
                Some(bit) => object.object("byte_of_bit", |o| bit.json(o)),
                None => Ok(()),
            }
        })?;
        return Ok(Status::Refused);
    }
    writeln!(output, "answer: {}\nreason: {}", refusal.answer(), refusal.meaning)?;
    match length {
        Some(length) => writeln!(output, "bytes: {}", length)?,
        None => writeln!(output, "bytes: more than {}", avsplus::LONGEST_STREAM)?,
    }
    if !there.is_empty() {
        writeln!(output, "there: {}", spaced(there))?;
    }
    if let Some(bit) = bit {
        bit.text(output)?;
    }
    Ok(Status::Refused)
}

/// `units REC`: the units' table.
pub fn units(args: &Args, output: &mut dyn Write) -> Result<Status, Failure> {
    let stream = read_stream(args.operand(0))?;
    let recording = file_stream(&stream)?;
    match args.json() {
        true => json::line(output, |object| {
            object.done(FILED)?;
            object.objects("units", recording.units(), unit_json)
        })?,
        false => units_text(output, &recording)?,
    }
    Ok(Status::Done)
}

/// `header REC [--group G]`: one group.
pub fn header(args: &Args, output: &mut dyn Write) -> Result<Status, Failure> {
    let g = args.number_option("--group")?.unwrap_or(0);
    let stream = read_stream(args.operand(0))?;
    let recording = file_stream(&stream)?;
    let groups = recording.groups().len();
    if g >= groups {
        return Err(no_row("group", g, groups));
    }
    match args.json() {
        true => json::line(output, |object| {
            object.done(FILED)?;
            group_json(object, &recording, g)
        })?,
        false => group_text(output, &recording, g)?,
    }
    Ok(Status::Done)
}

/// NO ROW, with what there is.
fn no_row(what: &str, n: usize, count: usize) -> Failure {
    let meaning = format!("there is no {} {}; the last is {}", what, n, count.saturating_sub(1));
    Failure::Refused(Refusal::from(Refused::from(Reason::NoRow)).meaning(meaning))
}

/// Unit `n` of a filed recording.
pub fn unit<'a>(recording: &Recording<'a>, n: usize) -> Result<avsplus::Unit<'a>, Failure> {
    recording.unit(n).map_err(|_| no_row("unit", n, recording.units().len()))
}

/// `body REC N`: the body of one unit.
pub fn body(args: &Args, output: &mut dyn Write) -> Result<Status, Failure> {
    let n = args.number_operand(1, "N")?;
    let stream = read_stream(args.operand(0))?;
    let unit = unit(&file_stream(&stream)?, n)?;
    if args.json() {
        json::line(output, |object| {
            object.done(FILED)?;
            unit_json(object, unit)?;
            object.hex("hex", unit.body)
        })?;
    } else if args.flag("--hex") {
        write_hex(output, unit.body)?;
        writeln!(output)?;
    } else {
        output.write_all(unit.body)?;
    }
    Ok(Status::Done)
}
