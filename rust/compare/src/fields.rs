//! What is judged in bodies, value by value: each body alone, and in streams.

use avsplus_sys::{AVSPLUS_EXTENSION_WITH_COLOUR, AVSPLUS_GROUP_WITH_COLOUR, AVSPLUS_ROW_WORDS};
use independent::generate::{judged_bodies, streams_with};

use crate::bodies;
use crate::comparison::Comparison;
use crate::streams::{check, file, group};

/// The most units of a stream with such a body.
const UNITS: usize = 8;
/// None; and enough, odd and even, since a recording's groups are then taken in two ways.
const GROUP_ROOMS: [usize; 3] = [0, AVSPLUS_GROUP_WITH_COLOUR + 1, AVSPLUS_GROUP_WITH_COLOUR];

/// Each judged field at each of its values or beside its limits, each marker at 0, each two faults in one body, and the rules on
/// copyright; in the first group and in a second one. Both wrappers are asked too.
pub(crate) fn of_all_layouts(comparison: &mut Comparison, all: bool) {
    for body in judged_bodies(all) {
        let streams = streams_with(&body).into_iter();
        streams.for_each(|stream| comparison.input_for_all(stream, in_stream));
        comparison.input_for_all(body.bytes, |comparison, body| {
            bodies::questions(comparison, body, &[0, AVSPLUS_EXTENSION_WITH_COLOUR]);
        });
    }
}

fn in_stream(comparison: &mut Comparison, stream: &[u8]) {
    check(comparison, stream);
    file(comparison, stream, AVSPLUS_ROW_WORDS * UNITS);
    for g in 0..3 {
        group(comparison, stream, g, &GROUP_ROOMS);
    }
}
