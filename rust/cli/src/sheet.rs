//! The sheet of a recording: its units and its groups, as text and as JSON.
//!
//! Every number is read from the stream, with its first bit and its width beside it, or worked out from such numbers, with how
//! beside it.

use std::fmt::Display;
use std::io::Write;

use avsplus::fields::{self, Field};
use avsplus::{
    sequence_header, Colour, CopyrightExtension, DisplayExtension, DisplayRatio, Extension, Ratio, Reason, Recording, Refused,
    SequenceHeader, Unit,
};

use crate::failure::{Failure, Written};
use crate::json::Object;

// ── units ──

/// The table of a recording's units.
pub fn units_text(output: &mut dyn Write, recording: &Recording<'_>) -> Written {
    writeln!(
        output,
        "{:>8}  {:>6}  {:<4}  {:<21}{:>10}{:>10}{:>8}",
        "unit", "group", "code", "kind", "offset", "length", "zeros"
    )?;
    for unit in recording.units() {
        write!(output, "{:>8}  ", unit.index)?;
        match unit.group {
            Some(group) => write!(output, "{:>6}", group)?,
            None => write!(output, "{:>6}", "-")?,
        }
        write!(output, "  {:02X}    ", unit.code)?;
        match unit.extension()? {
            Some(extension) => write!(output, "{:<21}", extension)?,
            None => write!(output, "{:<21}", unit.kind)?,
        }
        writeln!(output, "{:>10}{:>10}{:>8}", unit.offset, unit.body.len(), unit.trailing_zeros)?;
    }
    Ok(())
}

/// A unit as members of a JSON object.
pub fn unit_json(object: &mut Object, unit: Unit<'_>) -> Written {
    object.put("unit", unit.index)?;
    object.put("group", unit.group)?;
    object.put("in_head", unit.in_head)?;
    object.put("code", u32::from(unit.code))?;
    object.put("kind", unit.kind.name())?;
    if let Some(extension) = unit.extension()? {
        object.object("extension", |o| {
            o.put("number", u32::from(extension.number()))?;
            o.put("kind", extension_kind(&extension))
        })?;
    }
    object.put("offset", unit.offset)?;
    object.put("length", unit.body.len())?;
    object.put("trailing_zeros", unit.trailing_zeros)
}

fn extension_kind(extension: &Extension) -> &'static str {
    match extension {
        Extension::Display(_) => "display",
        Extension::Copyright(_) => "copyright",
        Extension::Opaque(_) => "opaque",
    }
}

// ── groups as text ──

/// The sequence header of group `g`, with the number of its unit.
fn header_of(recording: &Recording<'_>, g: usize) -> Result<(usize, SequenceHeader), Refused> {
    let unit = recording.units_of(g).next().ok_or(Reason::NoRow)?;
    Ok((unit.index, sequence_header(unit.body)?))
}

/// The extensions of group `g`, with the numbers of their units.
fn extensions<'r>(recording: &'r Recording<'_>, g: usize) -> impl Iterator<Item = Result<(usize, Extension), Refused>> + 'r {
    recording.units_of(g).filter_map(|unit| {
        let extension = unit.extension().transpose()?;
        Some(extension.map(|extension| (unit.index, extension)))
    })
}

/// The tables of group `g`: its sequence header, its display extension and its copyright extensions, in the order of their units.
pub fn group_text(output: &mut dyn Write, recording: &Recording<'_>, g: usize) -> Written {
    writeln!(output, "group {}", g)?;
    let (unit, header) = header_of(recording, g)?;
    header_text(output, unit, &header)?;
    let (mut display_given, mut copyright_given) = (false, false);
    for found in extensions(recording, g) {
        match found? {
            (unit, Extension::Display(display)) => {
                display_given = true;
                display_text(output, unit, &display)?;
            }
            (unit, Extension::Copyright(copyright)) => {
                copyright_given = true;
                copyright_text(output, unit, &copyright)?;
            }
            (_, Extension::Opaque(_)) => {}
        }
    }
    for (name, given) in [("display", display_given), ("copyright", copyright_given)] {
        if !given {
            writeln!(output, "\n  {} extension: not given", name)?;
        }
    }
    Ok(())
}

/// A table of fields that is being written.
struct Table<'w> {
    output: &'w mut dyn Write,
}

impl<'w> Table<'w> {
    fn begin(output: &'w mut dyn Write, unit: usize, title: &str) -> Result<Table<'w>, Failure> {
        writeln!(output, "\n  unit {}: {}", unit, title)?;
        writeln!(output, "    {:<20}{:>9}{:>8}  value", "field", "first bit", "width")?;
        Ok(Table { output })
    }

    /// Fields as they are in the stream.
    fn fields(&mut self, fields: &[(Field, u64)]) -> Written {
        for (field, value) in fields {
            let Field {
                name, first_bit, width, ..
            } = field;
            writeln!(self.output, "    {:<20}{:>9}{:>8}  {}", name, first_bit, width, value)?;
        }
        Ok(())
    }

    /// A value that has no bits in the stream.
    fn other(&mut self, name: &str, value: impl Display) -> Written {
        Ok(writeln!(self.output, "    {:<37}  {}", name, value)?)
    }

    /// A value that follows from fields, and how.
    fn worked_out(&mut self, name: &str, value: impl Display, how: impl Display) -> Written {
        self.other(name, format_args!("{}  worked out: {}", value, how))
    }
}

fn header_text(output: &mut dyn Write, unit: usize, header: &SequenceHeader) -> Written {
    let mut table = Table::begin(output, unit, "sequence header")?;
    let fields = fields::of_header(header);
    table.fields(&fields)?;
    let parts = sum(&fields, &[("bit rate high", " x 262144"), ("bit rate low", "")]);
    table.worked_out("bit rate", header.bit_rate, parts)?;
    let columns = format!("({} + 15) / 16", header.horizontal_size);
    table.worked_out("macroblock columns", header.macroblock_columns, columns)?;
    table.worked_out("macroblock rows", header.macroblock_rows, rows_text(header))?;
    let code = format!("frame rate code {}", header.frame_rate_code);
    table.worked_out("frame rate", header.frame_rate, code)?;
    table.worked_out("display ratio", header.display_ratio, format!("aspect {}", header.aspect))
}

/// How macroblock rows follow from progressive and vertical size.
fn rows_text(header: &SequenceHeader) -> String {
    let lines = header.vertical_size;
    if header.progressive {
        format!("({} + 15) / 16, as progressive is 1", lines)
    } else {
        format!("2 x (({} + 31) / 32), as progressive is 0", lines)
    }
}

fn display_text(output: &mut dyn Write, unit: usize, display: &DisplayExtension) -> Written {
    let mut table = Table::begin(output, unit, "display extension")?;
    table.fields(&fields::of_display(display))?;
    match display.colour {
        Some(_) => Ok(()),
        None => table.other("primaries, transfer and matrix", "not given"),
    }
}

fn copyright_text(output: &mut dyn Write, unit: usize, copyright: &CopyrightExtension) -> Written {
    let mut table = Table::begin(output, unit, "copyright extension")?;
    let fields = fields::of_copyright(copyright);
    table.fields(&fields)?;
    let parts = [("part one", " x 2^44"), ("part two", " x 2^22"), ("part three", "")];
    table.worked_out("copyright number", copyright.number, sum(&fields, &parts))
}

/// How a value is put together from fields: the sum of those of these names, each with its weight.
fn sum(fields: &[(Field, u64)], parts: &[(&str, &str)]) -> String {
    let part = |&(name, weight): &(&str, &str)| {
        let (_, value) = fields.iter().find(|(field, _)| field.name == name)?;
        Some(format!("{}{}", value, weight))
    };
    parts.iter().filter_map(part).collect::<Vec<_>>().join(" + ")
}

// ── groups as JSON ──

/// Group `g` as members of a JSON object.
pub fn group_json(object: &mut Object, recording: &Recording<'_>, g: usize) -> Written {
    let (unit, header) = header_of(recording, g)?;
    object.put("group", g)?;
    object.put("unit", unit)?;
    object.object("header", |o| o.fields(&fields::of_header(&header)))?;
    object.object("worked_out", |o| worked_out_json(o, &header))?;
    let display = extensions(recording, g).find_map(|found| match found {
        Ok((unit, Extension::Display(display))) => Some(Ok((unit, display))),
        Ok(_) => None,
        Err(refused) => Some(Err(refused)),
    });
    match display.transpose()? {
        Some((unit, display)) => object.object("display", |o| display_json(o, unit, &display))?,
        None => object.put("display", None::<u32>)?,
    }
    let copyrights = extensions(recording, g).filter_map(|found| match found {
        Ok((unit, Extension::Copyright(copyright))) => Some(Ok((unit, copyright))),
        Ok(_) => None,
        Err(refused) => Some(Err(refused)),
    });
    object.objects("copyrights", copyrights, |o, found| {
        let (unit, copyright) = found?;
        copyright_json(o, unit, &copyright)
    })
}

fn worked_out_json(object: &mut Object, header: &SequenceHeader) -> Written {
    object.put("bit_rate", header.bit_rate)?;
    object.put("macroblock_columns", header.macroblock_columns)?;
    object.put("macroblock_rows", header.macroblock_rows)?;
    object.object("frame_rate", |o| ratio_json(o, &header.frame_rate))?;
    match &header.display_ratio {
        DisplayRatio::Ratio(ratio) => object.object("display_ratio", |o| ratio_json(o, ratio)),
        DisplayRatio::SquareSamples => object.put("display_ratio", header.display_ratio.to_string()),
    }
}

fn ratio_json(object: &mut Object, ratio: &Ratio) -> Written {
    object.put("numerator", ratio.numerator)?;
    object.put("denominator", ratio.denominator)
}

/// The colour is one member: its numbers, or null where it is not given.
fn display_json(object: &mut Object, unit: usize, display: &DisplayExtension) -> Written {
    let of_colour = ["colour given", "primaries", "transfer", "matrix"];
    let mut fields = fields::of_display(display);
    fields.retain(|(field, _)| !of_colour.contains(&field.name));
    object.put("unit", unit)?;
    object.fields(&fields)?;
    match display.colour {
        Some(colour) => object.object("colour", |o| colour_json(o, colour)),
        None => object.put("colour", None::<u32>),
    }
}

fn colour_json(object: &mut Object, colour: Colour) -> Written {
    object.put("primaries", colour.primaries)?;
    object.put("transfer", colour.transfer)?;
    object.put("matrix", colour.matrix)
}

/// The number as a text: it has up to 64 bits, and readers of JSON round what is over 2^53.
fn copyright_json(object: &mut Object, unit: usize, copyright: &CopyrightExtension) -> Written {
    object.put("unit", unit)?;
    object.fields(&fields::of_copyright(copyright))?;
    object.object("worked_out", |o| o.put("copyright_number", copyright.number.to_string()))
}
