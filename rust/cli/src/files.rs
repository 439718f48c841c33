//! Reading and writing files.

use std::ffi::OsStr;
use std::fs::{self, File};
use std::io::{self, Read};
use std::os::unix::fs::{FileTypeExt, MetadataExt};

use crate::failure::Failure;
use crate::standard;

/// The names under which the system has the standard streams.
const STANDARD_INPUT: &str = "/dev/stdin";
const STANDARD_OUTPUT: &str = "/dev/stdout";

/// Reads a recording.
pub fn read_stream(name: &OsStr) -> Result<Vec<u8>, Failure> {
    read(name, avsplus::LONGEST_STREAM)
}

/// Reads a payload.
pub fn read_payload(name: &OsStr) -> Result<Vec<u8>, Failure> {
    read(name, avsplus::LONGEST_PAYLOAD)
}

/// Writes a file, in the place of what is there.
pub fn write(name: &OsStr, bytes: &[u8]) -> Result<(), Failure> {
    fs::write(name, bytes).map_err(|error| Failure::Trouble(format!("cannot write {:?}: {}", name.to_string_lossy(), error)))
}

/// Whether a name stands for standard input.
pub fn is_standard_input(name: &OsStr) -> bool {
    name == "-" || name == STANDARD_INPUT
}

/// Whether a name stands for standard output.
pub fn is_standard_output(name: &OsStr) -> bool {
    name == "-" || name == STANDARD_OUTPUT
}

/// Whether what is written to a name would go where input comes from. A device, such as /dev/null, may be both.
pub fn would_overwrite(output: &OsStr, input: &OsStr) -> bool {
    match is_standard_input(input) {
        true => are_one(output, OsStr::new(STANDARD_INPUT)),
        false => are_one(output, input),
    }
}

/// Whether what is written to a name would go where standard output goes.
pub fn would_mix(output: &OsStr) -> bool {
    are_one(output, OsStr::new(STANDARD_OUTPUT))
}

/// Whether two names are of one file or pipe.
fn are_one(first: &OsStr, second: &OsStr) -> bool {
    match (fs::metadata(first), fs::metadata(second)) {
        (Ok(first), Ok(second)) => {
            let device = first.file_type().is_char_device();
            !device && (first.dev(), first.ino()) == (second.dev(), second.ino())
        }
        _ => false,
    }
}

/// Reads a file, or standard input for `-`. One byte over the limit is enough to be TOO LONG, so no more is read.
fn read(name: &OsStr, limit: usize) -> Result<Vec<u8>, Failure> {
    let most = limit as u64 + 1;
    let (shown, bytes) = match is_standard_input(name) {
        true => (
            "standard input".to_string(),
            standard::input().and_then(|input| all(input, 0, most)),
        ),
        false => (format!("{:?}", name.to_string_lossy()), read_file(name, most)),
    };
    bytes.map_err(|error| Failure::Trouble(format!("cannot read {}: {}", shown, error)))
}

fn read_file(name: &OsStr, most: u64) -> io::Result<Vec<u8>> {
    let file = File::open(name)?;
    let length = file.metadata()?.len();
    all(file, length, most)
}

/// All bytes, with room for as many as are expected, so that no more memory is taken.
fn all(input: impl Read, expected: u64, most: u64) -> io::Result<Vec<u8>> {
    let mut bytes = Vec::with_capacity(expected.min(most) as usize);
    input.take(most).read_to_end(&mut bytes)?;
    Ok(bytes)
}
