//! Macroblock rows: of every height, and the slices in and after the last row, progressive and not; and two slices in any order.

use avsplus_sys::{AVSPLUS_GROUP_PLAIN, AVSPLUS_HEADER_NUMBERS, AVSPLUS_ROW_WORDS};

use crate::comparison::{alone, Comparison};
use crate::report::Question;
use crate::streams::{check, file, group as group_numbers, BEGINNING, ENDING};

/// The most that 14 bits hold.
const TALLEST: u32 = 16383;
/// Slices are tested up to 2800 lines, and not in the heights from there to this one.
const PAST_TESTED: u32 = 2840;
const SLICES: u32 = 0xB0;

/// The unit of a sequence header: that of 1920 by 1080 with another progressive and another vertical size.
fn header(progressive: bool, vertical: u32) -> [u8; 19] {
    let mut unit = [0; 19];
    unit.copy_from_slice(&BEGINNING[..19]);
    unit[6] = unit[6] & 0x7F | u8::from(progressive) << 7;
    unit[7] = unit[7] & 0xFE | (vertical >> 13) as u8;
    unit[8] = (vertical >> 5) as u8;
    unit[9] = unit[9] & 0x07 | (vertical << 3) as u8;
    unit
}

/// A group of one picture with one slice.
fn group(progressive: bool, vertical: u32, code: u8) -> Vec<u8> {
    let mut bytes = header(progressive, vertical).to_vec();
    bytes.extend([0, 0, 1, 0xB3, 0x80, 0, 0, 1, code, 0x80]);
    bytes
}

/// Slice codes from below the last row on to past it, by either formula.
fn codes_around(vertical: u32) -> impl Iterator<Item = u8> {
    let sixteenth = vertical / 16;
    (sixteenth.saturating_sub(1)..=sixteenth + 2)
        .filter(|&code| code < SLICES)
        .map(|code| code as u8)
}

/// Heights `step` apart: the numbers of a header with each, and filing with its last slices.
pub(crate) fn of_all_heights(comparison: &mut Comparison, step: usize) {
    for progressive in [false, true] {
        for vertical in (0..=TALLEST).step_by(step) {
            numbers(comparison, progressive, vertical);
        }
        for vertical in (1..=PAST_TESTED).step_by(step) {
            codes_around(vertical).for_each(|code| slice(comparison, progressive, vertical, code));
        }
    }
}

fn numbers(comparison: &mut Comparison, progressive: bool, vertical: u32) {
    let body = header(progressive, vertical)[4..].to_vec();
    comparison.input(body, |comparison, body| {
        comparison.numbers(
            Question::SequenceHeader,
            &alone,
            &[AVSPLUS_HEADER_NUMBERS],
            |decoder, lent| (decoder.sequence_header)(body, lent),
        );
    });
}

/// A slice in the first group, and in a second one after a group that is progressive where it is not.
fn slice(comparison: &mut Comparison, progressive: bool, vertical: u32, code: u8) {
    let tested = group(progressive, vertical, code);
    for before in [Vec::new(), group(!progressive, vertical, 0)] {
        let bytes = [&before[..], &tested, &ENDING].concat();
        comparison.input(bytes, |comparison, stream| {
            check(comparison, stream);
            file(comparison, stream, 7 * AVSPLUS_ROW_WORDS);
        });
    }
}

/// A slice after another one, in the same picture and in the next one, in the first group and in a second one: lower, the same
/// and higher, in the rows and past them, where slices are tested and where they are not. Both wrappers are asked too.
pub(crate) fn of_two(comparison: &mut Comparison) {
    for (vertical, before) in [496, 2801].iter().flat_map(|&v| [0, 5, 30, 31].map(|before| (v, before))) {
        for after in [0, 4, 5, 6, 30, 31, 32, 0xAF] {
            two(comparison, vertical, before, after);
        }
    }
}

fn two(comparison: &mut Comparison, vertical: u32, before: u8, after: u8) {
    let slice = [0, 0, 1, after, 0x80];
    let next_picture = [&[0, 0, 1, 0xB6, 0x80], &slice[..]].concat();
    let first_group = group(true, vertical, 30);
    for (earlier, last) in [(&[][..], &slice[..]), (&[], &next_picture), (&first_group, &slice)] {
        let bytes = [earlier, &group(false, vertical, before), last, &ENDING].concat();
        comparison.input_for_all(bytes, |comparison, stream| {
            check(comparison, stream);
            file(comparison, stream, 8 * AVSPLUS_ROW_WORDS);
            group_numbers(comparison, stream, 0, &[AVSPLUS_GROUP_PLAIN, AVSPLUS_GROUP_PLAIN + 1]);
        });
    }
}
