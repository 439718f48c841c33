//! Standard input, output and error, which the caller may have closed, or opened for the other way.
//!
//! Before `main` std opens /dev/null in the place of a standard stream that is closed, and it takes a stream that is open for the
//! other way for an empty or a willing one: what is written would be lost, and what is read would be an empty file, both without an
//! error. So this is asked earlier.

use std::fmt;
use std::io::{self, Stdin, Write};
use std::os::raw::c_int;
use std::sync::atomic::{AtomicBool, Ordering};

static INPUT_CLOSED: AtomicBool = AtomicBool::new(false);
static OUTPUT_CLOSED: AtomicBool = AtomicBool::new(false);
static ERROR_CLOSED: AtomicBool = AtomicBool::new(false);

/// Bytes that are written at once.
const BUFFER: usize = 1 << 16;

/// Standard output, written as it comes; an error where it was closed.
pub struct Output {
    buffer: Vec<u8>,
    line: String,
}

impl Output {
    pub fn new() -> Output {
        Output {
            buffer: Vec::with_capacity(2 * BUFFER),
            line: String::new(),
        }
    }

    fn pass_on(&mut self) -> io::Result<()> {
        output_is_open()?;
        io::stdout().write_all(&self.buffer)?;
        self.buffer.clear();
        Ok(())
    }

    fn pass_on_when_full(&mut self) -> io::Result<()> {
        match self.buffer.len() < BUFFER {
            true => Ok(()),
            false => self.pass_on(),
        }
    }
}

impl Write for Output {
    /// A part of the bytes, so that a long body takes no second place in memory.
    fn write(&mut self, bytes: &[u8]) -> io::Result<usize> {
        let part = &bytes[..bytes.len().min(BUFFER)];
        self.buffer.extend_from_slice(part);
        self.pass_on_when_full()?;
        Ok(part.len())
    }

    /// A line is put together first: it comes in small pieces, which a text takes faster than a file.
    fn write_fmt(&mut self, text: fmt::Arguments<'_>) -> io::Result<()> {
        self.line.clear();
        fmt::write(&mut self.line, text).map_err(|error| io::Error::new(io::ErrorKind::Other, error))?;
        self.buffer.extend_from_slice(self.line.as_bytes());
        self.pass_on_when_full()
    }

    fn flush(&mut self) -> io::Result<()> {
        if !self.buffer.is_empty() {
            self.pass_on()?;
        }
        io::stdout().flush()
    }
}

/// Standard input; an error where it cannot be read.
pub fn input() -> io::Result<Stdin> {
    not_closed(&INPUT_CLOSED, "it is not open for reading")?;
    Ok(io::stdin())
}

/// An error where standard output cannot be written: asked for before anything is done.
pub fn output_is_open() -> io::Result<()> {
    not_closed(&OUTPUT_CLOSED, "it is not open for writing")
}

/// Writes a complaint to standard error; there is nowhere to say that this failed.
pub fn complain(text: &str) {
    let _ = writeln!(io::stderr(), "avsplus: {}", text);
}

/// An error where standard error cannot be written.
pub fn error_is_open() -> io::Result<()> {
    not_closed(&ERROR_CLOSED, "standard error is not open for writing")
}

/// Writes to standard error what is a part of the answer.
pub fn note(text: &str) -> io::Result<()> {
    writeln!(io::stderr(), "avsplus: {}", text)
}

fn not_closed(closed: &AtomicBool, why: &'static str) -> io::Result<()> {
    match closed.load(Ordering::Relaxed) {
        true => Err(io::Error::new(io::ErrorKind::Other, why)),
        false => Ok(()),
    }
}

extern "C" {
    fn fcntl(descriptor: c_int, command: c_int, ...) -> c_int;
}

/// Asks how a descriptor is open, which a closed one is not; the mode is in the last two bits.
const F_GETFL: c_int = 3;
const O_ACCMODE: c_int = 3;
const O_RDONLY: c_int = 0;
const O_WRONLY: c_int = 1;

extern "C" fn look() {
    let streams = [
        (0, O_WRONLY, &INPUT_CLOSED),
        (1, O_RDONLY, &OUTPUT_CLOSED),
        (2, O_RDONLY, &ERROR_CLOSED),
    ];
    for (descriptor, other_way, closed) in streams {
        // SAFETY: the command takes a number alone and changes nothing.
        let flags = unsafe { fcntl(descriptor, F_GETFL) };
        closed.store(flags == -1 || flags & O_ACCMODE == other_way, Ordering::Relaxed);
    }
}

/// Called before `main`, and before std looks at the standard streams.
#[used]
#[link_section = ".init_array"]
static BEFORE_MAIN: extern "C" fn() = look;
