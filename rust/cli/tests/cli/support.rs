//! Files, streams and runs of the program.

use std::fs;
use std::io::Write;
use std::path::PathBuf;
use std::process::{Child, Command, Stdio};

use crate::json_reader::{parse, Json};

/// The sequence header of the worked examples: 1920 by 1080, bit rate 20,000.
pub const HEADER: [u8; 15] = [
    0x48, 0x40, 0x0F, 0x00, 0x21, 0xC2, 0x4C, 0xC4, 0xE2, 0x08, 0x00, 0x20, 0x02, 0x00, 0x80,
];

/// A display extension of 1920 by 1080 with colour 1, 1, 1.
pub const DISPLAY_WITH_COLOUR: [u8; 9] = [0x22, 0x80, 0x80, 0x80, 0x8F, 0x01, 0x10, 0xE0, 0x80];

/// A display extension of 1920 by 1080 without colour.
pub const DISPLAY: [u8; 6] = [0x22, 0x0F, 0x01, 0x10, 0xE0, 0x80];

/// A copyright extension: flag 1, owner 7, original 1, and a number over 2^53.
pub const COPYRIGHT: [u8; 12] = [0x48, 0x3C, 0x04, 0x04, 0x8D, 0x2A, 0xCF, 0x13, 0x6B, 0xCD, 0xEF, 0x80];

/// A payload whose removal leaves 54 bits and two that fill the last byte. At bit 8 of it begins a number whose last bit is not there.
pub const ESCAPED: [u8; 7] = [0xFF, 0x00, 0x00, 0x02, 0x40, 0x01, 0x01];

/// What a run of the program came to.
pub struct Ran {
    /// The exit status.
    pub status: i32,
    /// Standard output.
    pub output: Vec<u8>,
    /// Standard error.
    pub complaint: String,
}

impl Ran {
    /// Standard output as text.
    pub fn text(&self) -> &str {
        std::str::from_utf8(&self.output).unwrap()
    }

    /// The one JSON object on the one line of output.
    pub fn json(&self) -> Json {
        assert_eq!(self.text().matches('\n').count(), 1);
        parse(self.text())
    }
}

/// Runs the program.
pub fn avsplus(arguments: &[&str]) -> Ran {
    avsplus_reading(arguments, &[])
}

/// Starts the program, its standard streams at pipes.
pub fn started(arguments: &[&str]) -> Child {
    Command::new(env!("CARGO_BIN_EXE_avsplus"))
        .args(arguments)
        .stdin(Stdio::piped())
        .stdout(Stdio::piped())
        .stderr(Stdio::piped())
        .spawn()
        .unwrap()
}

/// Runs the program with bytes on standard input.
pub fn avsplus_reading(arguments: &[&str], input: &[u8]) -> Ran {
    let mut child = started(arguments);
    // The program may end before it has read all.
    let _ = child.stdin.take().unwrap().write_all(input);
    let done = child.wait_with_output().unwrap();
    Ran {
        status: done.status.code().unwrap(),
        output: done.stdout,
        complaint: String::from_utf8(done.stderr).unwrap(),
    }
}

/// Runs the program by a line of the shell, in which $A is the program.
pub fn shell(line: &str) -> Ran {
    let done = Command::new("sh")
        .args(["-c", line])
        .env("A", env!("CARGO_BIN_EXE_avsplus"))
        .stdin(Stdio::null())
        .output()
        .unwrap();
    Ran {
        status: done.status.code().unwrap(),
        output: done.stdout,
        complaint: String::from_utf8(done.stderr).unwrap(),
    }
}

/// A path for a file of this test run.
pub fn path(name: &str) -> PathBuf {
    PathBuf::from(env!("CARGO_TARGET_TMPDIR")).join(name)
}

/// Writes a file and answers its name.
pub fn written(name: &str, bytes: &[u8]) -> String {
    let path = path(name);
    fs::write(&path, bytes).unwrap();
    path.to_str().unwrap().to_string()
}

/// A unit.
pub fn unit(code: u8, body: &[u8]) -> Vec<u8> {
    [&[0, 0, 1, code], body].concat()
}

/// A group with what is to stand in its head, an I picture and a slice.
pub fn group(header: &[u8], head: &[Vec<u8>]) -> Vec<u8> {
    [unit(0xB0, header), head.concat(), unit(0xB3, &[0x80]), unit(0x00, &[0x80])].concat()
}

/// The first worked example.
pub fn example_1() -> Vec<u8> {
    [group(&HEADER, &[]), unit(0xB1, &[])].concat()
}
