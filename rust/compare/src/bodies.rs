//! Single bodies, and the codes that stand for ratios and kinds.

use avsplus_sys::{AVSPLUS_EXTENSION_WITH_COLOUR, AVSPLUS_HEADER_NUMBERS, AVSPLUS_LONGEST_STREAM, AVSPLUS_RATIO_NUMBERS};
use independent::generate::{extension_body, header_body, Random};

use crate::comparison::{alone, rooms, Comparison, ALL_ROOMS};
use crate::decoder::{CodeNumbers, Decoder};
use crate::inputs::{letters, pick};
use crate::report::Question;

/// A question about a code.
type AskedOfCode = (Question, fn(&Decoder) -> CodeNumbers);

const CODE_QUESTIONS: [AskedOfCode; 2] = [
    (Question::FrameRate, |decoder| decoder.frame_rate),
    (Question::DisplayRatio, |decoder| decoder.display_ratio),
];

pub(crate) fn generated(comparison: &mut Comparison, random: &mut Random, count: u64) {
    for _ in 0..count {
        let bytes = match random.below(10) {
            0..=3 => header_body(random),
            4..=8 => extension_body(random),
            _ => any_body(random),
        };
        comparison.input(bytes, |comparison, body| questions(comparison, body, &ALL_ROOMS));
    }
}

/// A body of any bytes; its first is mostly that of an extension with a layout.
fn any_body(random: &mut Random) -> Vec<u8> {
    let length = random.index(24);
    let mut body = letters(random, length, &[0, 0, 1, 2, 0x21, 0x40, 0x55, 0x80, 0xFF]);
    if let Some(first) = body.first_mut() {
        *first = pick(random, &[0x20, 0x2F, 0x28, 0x40, 0x48, 0x4F, 0xF0]);
    }
    body
}

/// Every body is read as a header, and as an extension in both scopes with some rooms.
pub(crate) fn questions(comparison: &mut Comparison, body: &[u8], extension_rooms: &[usize]) {
    let wanted = rooms(AVSPLUS_HEADER_NUMBERS);
    comparison.numbers(Question::SequenceHeader, &alone, &wanted, |decoder, lent| {
        (decoder.sequence_header)(body, lent)
    });
    for in_head in [true, false] {
        let with = || format!("in head {}", in_head);
        comparison.numbers(Question::Extension, &with, extension_rooms, |decoder, lent| {
            (decoder.extension)(body, in_head, lent)
        });
    }
}

/// Bodies longer than any stream: a body has no limit of its own.
pub(crate) fn longest(comparison: &mut Comparison, random: &mut Random) {
    for make in [header_body, extension_body] {
        let mut body = make(random);
        body.resize(AVSPLUS_LONGEST_STREAM as usize + 1, 0);
        comparison.input(body, |comparison, body| {
            questions(comparison, body, &[0, AVSPLUS_EXTENSION_WITH_COLOUR]);
        });
    }
}

/// Frame rates and display ratios of codes good and bad, and the kinds of all code bytes.
pub(crate) fn codes(comparison: &mut Comparison) {
    for code in (0..=300).chain([1 << 31, u32::MAX - 1, u32::MAX]) {
        comparison.input(code.to_be_bytes().to_vec(), |comparison, _| {
            for (question, of) in CODE_QUESTIONS {
                let with = || format!("code {}", code);
                comparison.numbers(question, &with, &rooms(AVSPLUS_RATIO_NUMBERS), |decoder, lent| {
                    of(decoder)(code, lent)
                });
            }
        });
    }
    for code in 0..=u8::MAX {
        comparison.input(vec![code], |comparison, _| {
            comparison.ask(Question::Kind, &alone, |decoder| (decoder.kind)(code));
        });
    }
}
