//! A plain decoder written from documents 01 and 02 alone, to be compared with another one.
//! It aims at being obviously the document's words, not at speed.
#![forbid(unsafe_code)]

mod bins;
mod bits;
mod filing;
pub mod generate;
mod layouts;
mod payload;
mod refusals;
mod rows;
mod units;

pub use bins::{bypass, decode, decode_pair, fresh, start, stuffing, table_entry, Context, State};
pub use filing::{check, file, group};
pub use layouts::{
    display_ratio, extension, frame_rate, header, macroblock_columns, macroblock_rows, Copyright, Display, Extension, Header,
};
pub use payload::{golomb, signed_golomb, unescape};
pub use refusals::{name, Fault, Refused, Unread, NAMES};
pub use rows::{row_body, row_exists};
pub use units::{kind, next_start_code};
