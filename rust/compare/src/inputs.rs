//! Small choices that several kinds of input share.

use independent::generate::Random;

/// One of the given values.
pub(crate) fn pick<T: Copy>(random: &mut Random, from: &[T]) -> T {
    from[random.index(from.len())]
}

/// So many bytes out of an alphabet.
pub(crate) fn letters(random: &mut Random, length: usize, alphabet: &[u8]) -> Vec<u8> {
    (0..length).map(|_| pick(random, alphabet)).collect()
}

/// All strings over an alphabet, from the empty one up to a length.
pub(crate) fn all_strings(alphabet: &'static [u8], longest: usize) -> impl Iterator<Item = Vec<u8>> {
    (0..=longest).flat_map(move |length| {
        let strings = alphabet.len().pow(length as u32);
        (0..strings).map(move |number| string(alphabet, length, number))
    })
}

/// The string that a number stands for with the alphabet as digits.
fn string(alphabet: &[u8], length: usize, number: usize) -> Vec<u8> {
    let mut rest = number;
    let digits = (0..length).map(|_| {
        let digit = rest % alphabet.len();
        rest /= alphabet.len();
        alphabet[digit]
    });
    digits.collect()
}

/// A bit count for a payload: over, at and under what its bytes hold, at times wildly over.
pub(crate) fn bit_count(random: &mut Random, bytes: &[u8]) -> usize {
    let held = 8 * bytes.len();
    match random.below(10) {
        0 => held + 1,
        1 => held + random.index(100),
        2 => usize::MAX,
        3 => held.saturating_sub(1),
        4 => random.index(held + 1),
        5 => held.saturating_sub(random.index(24)),
        _ => held,
    }
}
