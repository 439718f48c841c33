//! Start codes, escape bits and Exp-Golomb numbers.

use avsplus_sys::AVSPLUS_LONGEST_PAYLOAD;
use independent::generate::{cut_number, payload, Random};

use crate::comparison::{lend, rooms, Comparison, Reading};
use crate::inputs::{all_strings, bit_count, letters, pick};
use crate::report::Question;

const LONGEST: usize = AVSPLUS_LONGEST_PAYLOAD as usize;

/// All strings of what start codes are made of.
pub(crate) fn all_start_codes(comparison: &mut Comparison, longest: usize) {
    all_strings(&[0, 1, 2], longest).for_each(|bytes| comparison.input(bytes, start_code_questions));
}

/// One start code, or what is nearly one, at every place of short strings of one byte: a search that steps by more than a byte
/// comes to each from all sides, with bytes before it that it may pass over.
pub(crate) fn lone_start_codes(comparison: &mut Comparison, longest: usize) {
    for length in 0..=longest {
        for (at, fill) in (0..length).flat_map(|at| [0, 1, 2, 0xFF].map(|fill| (at, fill))) {
            for put in [&[0, 0, 1][..], &[0, 0, 0, 1], &[0, 1], &[0, 0, 2]] {
                let mut bytes = vec![fill; length];
                bytes.iter_mut().skip(at).zip(put).for_each(|(byte, new)| *byte = *new);
                comparison.input(bytes, start_code_questions);
            }
        }
    }
}

pub(crate) fn start_codes(comparison: &mut Comparison, random: &mut Random, count: u64) {
    for _ in 0..count {
        let length = pick(random, &[9, 16, 40, 300]);
        let length = random.index(length);
        let alphabet = pick(random, &[&[0_u8, 1, 2][..], &[0, 0, 0, 0, 1, 0xFF]]);
        comparison.input(letters(random, length, alphabet), start_code_questions);
    }
}

/// From every place, and from places past the end.
fn start_code_questions(comparison: &mut Comparison, bytes: &[u8]) {
    for from in (0..=bytes.len() + 2).chain([usize::MAX - 2, usize::MAX]) {
        let with = || format!("from {}", from);
        comparison.ask(Question::NextStartCode, &with, |decoder| {
            (decoder.next_start_code)(bytes, from)
        });
    }
}

/// All strings of what escape bits turn on.
pub(crate) fn all_escapes(comparison: &mut Comparison, longest: usize) {
    all_strings(&[0, 2, 3, 0xFF], longest).for_each(|bytes| comparison.input(bytes, escape_questions));
}

pub(crate) fn escapes(comparison: &mut Comparison, random: &mut Random, count: u64) {
    for _ in 0..count {
        comparison.input(payload(random), escape_questions);
    }
}

fn escape_questions(comparison: &mut Comparison, bytes: &[u8]) {
    for room in rooms(bytes.len()) {
        let with = || format!("{} bytes lent", room);
        comparison.ask(Question::RemoveEscapes, &with, |decoder| {
            lend(room, |output| (decoder.remove_escapes)(bytes, output))
        });
    }
}

/// Every payload of two bytes whose number a step divides, from its first bit on.
pub(crate) fn two_byte_golomb(comparison: &mut Comparison, step: usize) {
    for number in (0..=u16::MAX).step_by(step) {
        comparison.input(number.to_be_bytes().to_vec(), |comparison, bytes| {
            golomb(comparison, bytes, 16, 0)
        });
    }
}

/// One more than VALUE takes.
const MOST_ZEROS: u64 = 33;
/// The most zeros of a number that is read: all counts of missing bits are those of such a one.
const ZEROS_OF_LONGEST: u64 = 31;

/// Numbers cut at each of their bits by the bit count, where the bytes hold more, and by the bytes, where the count says as
/// much or more. Both wrappers are asked too.
pub(crate) fn cut_golomb(comparison: &mut Comparison, all: bool) {
    for zeros in 0..=MOST_ZEROS {
        let whole = 2 * zeros + 1;
        let (bytes, place) = cut_number(zeros, whole + 9);
        comparison.input_for_all(bytes, |comparison, bytes| {
            for end in place..=place + whole {
                cut_questions(comparison, bytes, end as usize, place as usize);
            }
        });
        if all || zeros == ZEROS_OF_LONGEST {
            (0..=whole).for_each(|kept| cut_by_bytes(comparison, zeros, kept));
        }
    }
}

fn cut_by_bytes(comparison: &mut Comparison, zeros: u64, kept: u64) {
    let (bytes, place) = cut_number(zeros, kept);
    comparison.input_for_all(bytes, |comparison, bytes| {
        let held = 8 * bytes.len();
        for bits in [held, held + 1, held + 40, usize::MAX] {
            cut_questions(comparison, bytes, bits, place as usize);
        }
    });
}

/// From the place of the number, from the end on and past it.
fn cut_questions(comparison: &mut Comparison, bytes: &[u8], bits: usize, place: usize) {
    let end = bits.min(8 * bytes.len());
    for from in [place, end, end + 1, end + 31] {
        golomb(comparison, bytes, bits, from);
    }
}

/// Payloads of any bytes, and of few ones between long runs of zeros.
pub(crate) fn generated_golomb(comparison: &mut Comparison, random: &mut Random, count: u64) {
    for i in 0..count {
        let bytes = if i % 3 == 0 { payload(random) } else { zeros_and_ones(random) };
        comparison.input(bytes, |comparison, bytes| golomb_questions(comparison, random, bytes));
    }
}

fn zeros_and_ones(random: &mut Random) -> Vec<u8> {
    let length = random.index(20);
    letters(random, length, &[0, 0, 0, 0, 0, 0, 1, 2, 0x10, 0x80, 0xFF])
}

fn golomb(comparison: &mut Comparison, bytes: &[u8], bits: usize, place: usize) {
    let reading = Reading { bits, place };
    let with = || format!("{} bits, place {}", bits, place);
    comparison.ask_of_bits(Question::UnsignedGolomb, reading, &with, |decoder| {
        (decoder.unsigned_golomb)(bytes, bits, place)
    });
    comparison.ask_of_bits(Question::SignedGolomb, reading, &with, |decoder| {
        (decoder.signed_golomb)(bytes, bits, place)
    });
}

/// Places anywhere, at the end, past it and far off.
fn golomb_questions(comparison: &mut Comparison, random: &mut Random, bytes: &[u8]) {
    let bits = bit_count(random, bytes);
    let end = bits.min(8 * bytes.len());
    let before_end = end.saturating_sub(random.index(70));
    for place in [0, random.index(end + 1), before_end, end, end + 1, usize::MAX] {
        golomb(comparison, bytes, bits, place);
    }
}

/// Payloads at the limit and one byte over, with their last number at their very end.
pub(crate) fn longest(comparison: &mut Comparison, random: &mut Random) {
    for length in [LONGEST, LONGEST + 1] {
        for end in [
            &[0, 0, 2, 1, 0xFF, 0xFF, 0xFF, 0xFF][..],
            &[0, 0, 0, 1, 0, 0, 0],
            &[0x80],
            &[0; 5],
        ] {
            let mut bytes = vec![random.byte(); length - end.len()];
            bytes.extend(end);
            comparison.input(bytes, |comparison, bytes| {
                golomb_questions(comparison, random, bytes);
                golomb(comparison, bytes, usize::MAX, 8 * (length - end.len()));
                escape_questions(comparison, bytes);
            });
        }
    }
}
