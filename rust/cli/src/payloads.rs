//! The commands on payloads. The bit count travels with the bytes: what fills a last byte is never read as data.

use std::ffi::OsStr;
use std::io::{self, Write};

use avsplus::{Kind, Payload, Reason, Refused};

use crate::args::Args;
use crate::failure::{Failure, Refusal, Status, Written};
use crate::files::{is_standard_output, read_payload, read_stream, would_mix, would_overwrite, write};
use crate::json::{self, write_hex, Object};
use crate::recordings::{file_stream, unit};
use crate::standard::{error_is_open, note};

/// The answer to a payload that was read.
pub const DONE: &str = "done";

/// A payload as a command is given it.
pub struct Given {
    /// The bits that are read.
    pub payload: Payload<'static>,
    /// Zeros after them at the end of the last byte, which are not read: nobody said whether they are the payload's or fill it up.
    pub unsure: usize,
}

impl Given {
    /// Reads what `--unit`, `--escaped` or `--bits` says the payload is. Without any of these its end is not known: zeros after the
    /// last 1 of the last byte may be filling.
    pub fn read(args: &Args) -> Result<Given, Failure> {
        let asked = ["--unit", "--escaped", "--bits"].map(|name| args.flag(name) || args.option(name).is_some());
        if asked.iter().filter(|&&asked| asked).count() > 1 {
            return Err(Failure::usage("--unit, --escaped and --bits exclude each other"));
        }
        match asked {
            [true, _, _] | [_, true, _] => Ok(Given {
                payload: unescaped(args)?,
                unsure: 0,
            }),
            [_, _, true] => Given::of_bits(args),
            _ => {
                let bytes = read_within_limit(args.operand(0))?;
                let unsure = bytes.last().map_or(0, |last| last.trailing_zeros().min(7) as usize);
                Ok(Given {
                    payload: Payload::first_bits(&bytes, 8 * bytes.len() - unsure).into_owned(),
                    unsure,
                })
            }
        }
    }

    /// So many bits as `--bits` says, which must be there, or all.
    fn of_bits(args: &Args) -> Result<Given, Failure> {
        let bits = args.number_or("--bits", "all")?;
        let bytes = read_within_limit(args.operand(0))?;
        let payload = match bits {
            Some(bits) => Payload::first_bits(&bytes, bits).into_owned(),
            None => Payload::whole(&bytes).into_owned(),
        };
        match bits {
            Some(bits) if bits > payload.bits() => Err(Failure::Trouble(format!(
                "cannot read {} bits: there are {}",
                bits,
                payload.bits()
            ))),
            _ => Ok(Given { payload, unsure: 0 }),
        }
    }

    /// How many bits there are, those that are not read among them.
    pub fn bits(&self) -> usize {
        self.payload.bits() + self.unsure
    }

    /// Ends the sentence of what was wanted more than the payload holds: without which of the bits that are left, as these may be
    /// filling and are not read.
    pub fn without_unsure(&self, left: usize) -> String {
        let what = match self.unsure.min(left) {
            0 => return String::new(),
            1 => "bit, a zero, which may be filling and is".to_string(),
            many => format!("{} bits, zeros, which may be filling and are", many),
        };
        format!(
            " without its last {} not read: --bits says how many bits the payload has",
            what
        )
    }

    /// The first line of text.
    pub fn text(&self, output: &mut dyn Write) -> io::Result<()> {
        match self.unsure {
            0 => writeln!(output, "payload: {}", bits(self.bits())),
            _ => writeln!(
                output,
                "payload: {}, of which the last {} may be filling",
                bits(self.bits()),
                self.unsure
            ),
        }
    }

    /// The first members of a JSON object.
    pub fn json(&self, object: &mut Object) -> Written {
        object.put("payload_bits", self.bits())?;
        object.put("may_be_filling", self.unsure)
    }
}

/// A count of bits in words.
pub fn bits(count: usize) -> String {
    format!("{} bit{}", count, if count == 1 { "" } else { "s" })
}

/// Reads a payload; one byte over the limit is TOO LONG, and how many more there are is not known.
fn read_within_limit(name: &OsStr) -> Result<Vec<u8>, Failure> {
    let bytes = read_payload(name)?;
    match bytes.len() > avsplus::LONGEST_PAYLOAD {
        true => Err(Failure::Refused(refusal_of(Reason::TooLong.into())?)),
        false => Ok(bytes),
    }
}

/// The payload of a recording's unit, or of a file as it is, its escape bits removed.
fn unescaped(args: &Args) -> Result<Payload<'static>, Failure> {
    let name = args.operand(0);
    let removed = match args.number_option("--unit")? {
        Some(n) => avsplus::remove_escapes(body_of(&read_stream(name)?, n)?),
        None => avsplus::remove_escapes(&read_within_limit(name)?),
    };
    match removed {
        Ok(payload) => Ok(payload),
        Err(refused) => Err(Failure::Refused(refusal_of(refused)?)),
    }
}

/// The body of a picture or slice of a recording. All others are read as they stand, so no escape bits are removed from them.
fn body_of(stream: &[u8], n: usize) -> Result<&[u8], Failure> {
    let unit = unit(&file_stream(stream)?, n)?;
    match unit.kind {
        Kind::IPicture | Kind::PbPicture | Kind::Slice => Ok(unit.body),
        other => Err(Failure::Trouble(format!(
            "unit {} has no escape bits: it is of kind {}, and only pictures and slices have them",
            n, other
        ))),
    }
}

/// A refusal of a payload with what it means for one, or a library that does not fit.
pub fn refusal_of(refused: Refused) -> Result<Refusal, Failure> {
    let refusal = match Failure::from(refused) {
        Failure::Refused(refusal) => refusal,
        other => return Err(other),
    };
    let meaning = match refusal.reason() {
        Reason::TooLong => format!("{} of {} for a payload", refusal.meaning, avsplus::LONGEST_PAYLOAD),
        Reason::Value => "32 zeros stand here, and no number begins with so many".to_string(),
        _ => return Ok(refusal),
    };
    Ok(refusal.meaning(meaning))
}

/// What a command comes to after its output: a refusal is a complaint, where it does not stand in a JSON object already. A reader who
/// has seen enough of the output does not change the answer.
pub fn concluded(written: Written, refusal: Option<Refusal>, json: bool) -> Result<Status, Failure> {
    match written {
        Err(failure) if !failure.is_closed_pipe() => return Err(failure),
        _ => {}
    }
    match refusal {
        None => Ok(Status::Done),
        Some(_) if json => Ok(Status::Refused),
        Some(refusal) => Err(Failure::Refused(refusal)),
    }
}

/// `unescape FILE [--unit N] [--output OUT]`: escape bits removed.
pub fn unescape(args: &Args, output: &mut dyn Write) -> Result<Status, Failure> {
    let to = match args.option("--output") {
        Some(name) if is_standard_output(name) => return unescape_to_standard(args, output),
        to => to,
    };
    if to.map_or(false, |name| would_overwrite(name, args.operand(0))) {
        return Err(Failure::usage("--output is FILE itself"));
    }
    if to.map_or(false, would_mix) {
        return Err(Failure::usage("--output is where standard output goes; say --output -"));
    }
    let payload = unescaped(args)?;
    if let Some(name) = to {
        write(name, payload.bytes())?;
    }
    match args.json() {
        true => unescape_json(output, &payload, to.is_none())?,
        false => unescape_text(output, &payload, to.is_none())?,
    }
    Ok(Status::Done)
}

/// The bytes go to standard output, and the bit count to standard error.
fn unescape_to_standard(args: &Args, output: &mut dyn Write) -> Result<Status, Failure> {
    if args.json() {
        return Err(Failure::usage("--json and --output - exclude each other"));
    }
    let lost = |error: io::Error| Failure::Trouble(format!("cannot write the bit count: {}", error));
    error_is_open().map_err(lost)?;
    let payload = unescaped(args)?;
    output.write_all(payload.bytes())?;
    output.flush()?;
    note(&format!("{}: read them with --bits {}", bits(payload.bits()), payload.bits())).map_err(lost)?;
    Ok(Status::Done)
}

fn unescape_text(output: &mut dyn Write, payload: &Payload<'_>, shown: bool) -> Written {
    writeln!(output, "bits: {}", payload.bits())?;
    if shown {
        write!(output, "bytes: ")?;
        write_hex(output, payload.bytes())?;
        writeln!(output)?;
    }
    Ok(writeln!(output, "read with: --bits {}", payload.bits())?)
}

fn unescape_json(output: &mut dyn Write, payload: &Payload<'_>, shown: bool) -> Written {
    json::line(output, |object| {
        object.done(DONE)?;
        object.put("bits", payload.bits())?;
        match shown {
            true => object.hex("hex", payload.bytes()),
            false => object.put("hex", None::<u32>),
        }
    })
}
