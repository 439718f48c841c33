//! Deterministic inputs for a comparison of two decoders. Nothing here calls this package's own decoder.

mod bodies;
mod cuts;
mod damage;
mod fields;
mod payloads;
mod random;
mod recording;

use std::ops::RangeInclusive;

pub use bodies::{extension_body, header_body};
pub use cuts::recordings_to_cut;
pub use damage::damaged;
pub use fields::{judged_bodies, streams_with, Body};
pub use payloads::{
    bins_payload, context, cut_number, payload, payload_that_wants, state, states_that_use, states_that_want, WANTED_BY_ZERO,
};
pub use random::Random;
pub use recording::stream;

/// Every number that carries a bit, with each bit that it can carry (document 02, E1): what inputs have to meet.
pub const BITS: [(u32, u64); 21] = [
    (7, 21),
    (7, 23),
    (7, 42),
    (7, 47),
    (7, 65),
    (7, 76),
    (7, 90),
    (20, 17),
    (21, 31),
    (22, 45),
    (23, 47),
    (24, 50),
    (25, 54),
    (26, 17),
    (27, 25),
    (28, 38),
    (28, 62),
    (29, 5),
    (30, 22),
    (31, 0),
    (32, 0),
];

/// How many bits can be missing of an Exp-Golomb number (document 02, E13): what inputs have to meet, as below.
pub const MISSING_OF_NUMBERS: RangeInclusive<u32> = 1..=31;
/// How many of a start.
pub const MISSING_OF_STARTS: RangeInclusive<u32> = 1..=9;
/// How many of a bin.
pub const MISSING_OF_BINS: RangeInclusive<u32> = 1..=1;

/// How many bits can be left before a bin that comes near the end, and how many it can want there: what inputs have to meet.
/// Past 32 bits, and by more than a byte, since so many may be read at once.
pub const LEFT_TO_BINS: RangeInclusive<u64> = 0..=40;
/// As many as are left, and one more.
pub const WANTED_BY_BINS: RangeInclusive<u64> = 1..=41;
