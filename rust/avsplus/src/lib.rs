//! AVS+ (GY/T 257.1) broadcast recordings, read by a static library behind a safe interface.
//!
//! A recording is a stream of units, each a start code 00 00 01, a code byte and a body. [`file()`] checks a whole stream and
//! lists its units and groups; [`sequence_header`] and [`extension`] read single bodies; [`remove_escapes`] gives a [`Payload`],
//! which has Exp-Golomb numbers and bins.
//!
//! The library keeps nothing of what it is lent, and a refusal leaves all lent memory as it was. Whatever asks the library is an
//! error where the one that is linked has another interface than this crate was written for; the declarations are the crate
//! `avsplus-sys`. There is one error, [`Refused`]; which refusals a call can have, and exactly when, is in docs/RULES.md of the
//! project.
//!
//! A refusal for a marker, or for a value that is ruled out in a body, says at which bit of the body, and which field it is of:
//! [`Reason::Marker`] and [`Reason::ValueOf`], which is a slice's too. [`Reason::Value`] is an Exp-Golomb number's alone, since
//! version 2 of the interface. A payload that ends too early says how many more bits were wanted than it holds:
//! [`Reason::PayloadOut`].
//!
//! ```
//! let header = [0x48, 0x40, 0x0F, 0x00, 0x21, 0xC2, 0x4C, 0xC4, 0xE2, 0x08, 0x00, 0x20, 0x02, 0x00, 0x80];
//! let rest = [0, 0, 1, 0xB3, 0x80, 0, 0, 1, 0x00, 0x80, 0, 0, 1, 0xB1];
//! let stream = [&[0, 0, 1, 0xB0][..], &header, &rest].concat();
//!
//! let recording = avsplus::file(&stream)?;
//! for unit in recording.units() {
//!     println!("{:02X} {} at {}: {} bytes", unit.code, unit.kind, unit.offset, unit.body.len());
//! }
//! let group = recording.group(0)?;
//! assert_eq!((group.header.horizontal_size, group.header.vertical_size), (1920, 1080));
//! assert_eq!(group.display, None);
//! # Ok::<(), avsplus::Refused>(())
//! ```

#![deny(missing_docs)]
#![deny(unsafe_code)]

mod bins;
mod bodies;
#[allow(unsafe_code)]
mod calls;
pub mod fields;
mod filing;
mod kinds;
mod payload;
mod rates;
mod recording;
mod refused;

pub use bins::{Context, State};
pub use bodies::{
    display_ratio, extension, frame_rate, sequence_header, Colour, CopyrightExtension, DisplayExtension, DisplayRatio,
    Extension, Ratio, Scope, SequenceHeader,
};
pub use filing::{check, file_into, group, next_start_code, row_body, row_exists, Group, Totals, LONGEST_STREAM, ROW_WORDS};
pub use kinds::Kind;
pub use payload::{remove_escapes, remove_escapes_into, Payload, LONGEST_PAYLOAD};
pub use rates::Rate;
pub use recording::{file, Groups, Recording, Unit, Units};
pub use refused::{JudgedField, ListedRefusal, Reason, Refused};

/// The number of the interface that this crate was written for.
pub const INTERFACE: u32 = avsplus_sys::AVSPLUS_VERSION;

/// The number of the library's interface: where it is not [`INTERFACE`], every other call of the library is an error.
///
/// ```
/// assert_eq!(avsplus::version(), avsplus::INTERFACE);
/// ```
pub fn version() -> u32 {
    calls::version()
}
