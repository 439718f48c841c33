//! recording FILE: the units of an AVS+ recording, the size and frame rate in each sequence header, and the first group's
//! display. Exit status: 0 where the recording is filed, 1 where it is refused, 2 where that could not be found out.

use std::ffi::OsString;
use std::fs::File;
use std::io::{self, Read};
use std::process::ExitCode;

use avsplus::{Kind, Recording, Refused};

/// Reads a file. One byte more than the longest stream is enough: of a longer file the library says itself that it is TOO LONG.
fn read(path: Option<OsString>) -> io::Result<Vec<u8>> {
    let path = path.ok_or_else(|| io::Error::new(io::ErrorKind::InvalidInput, "usage: recording FILE"))?;
    let mut stream = Vec::new();
    let most = avsplus::LONGEST_STREAM as u64 + 1;
    File::open(path)?.take(most).read_to_end(&mut stream)?;
    Ok(stream)
}

fn print_units(recording: &Recording) -> Result<(), Refused> {
    for unit in recording.units() {
        print!("unit {}: code {:02X}, offset {}", unit.index, unit.code, unit.offset);
        // The body is a part of the stream.
        print!(", length {}", unit.body.len());
        match unit.body.first() {
            Some(byte) => println!(", first byte {:02X}", byte),
            None => println!(),
        }
        if unit.kind == Kind::SequenceHeader {
            let header = avsplus::sequence_header(unit.body)?;
            println!("  size {} x {}", header.horizontal_size, header.vertical_size);
            println!("  frame rate {}", header.frame_rate);
        }
    }
    Ok(())
}

/// What the group does not have is `None`: no number stands for it.
fn print_first_group(recording: &Recording) -> Result<(), Refused> {
    let group = recording.group(0)?;
    println!("group 0:");
    match group.display {
        Some(display) => println!("  display size {} x {}", display.width, display.height),
        None => println!("  display size not given"),
    }
    match group.display.and_then(|display| display.colour) {
        Some(colour) => println!(
            "  colour primaries {}, transfer {}, matrix {}",
            colour.primaries, colour.transfer, colour.matrix
        ),
        None => println!("  colour not given"),
    }
    Ok(())
}

fn print(stream: &[u8]) -> Result<(), Refused> {
    let recording = avsplus::file(stream)?;
    print_units(&recording)?;
    print_first_group(&recording)
}

fn main() -> ExitCode {
    if avsplus::version() != avsplus::INTERFACE {
        eprintln!("recording: the library is not that of the crate");
        return ExitCode::from(2);
    }
    let stream = match read(std::env::args_os().nth(1)) {
        Ok(stream) => stream,
        Err(error) => {
            eprintln!("recording: {}", error);
            return ExitCode::from(2);
        }
    };
    match print(&stream) {
        Ok(()) => ExitCode::SUCCESS,
        Err(refused) => {
            println!("refused: {}", refused);
            ExitCode::from(1)
        }
    }
}
