//! Payloads, bin states and contexts.

use super::random::Random;
use crate::bins::{Context, State};

fn bytes(random: &mut Random, length: u64, from: &[u8]) -> Vec<u8> {
    (0..length).map(|_| random.pick(from)).collect()
}

/// A payload rich in 00 and 02, mostly short, at times as long as may be, rarely one byte longer.
pub fn payload(random: &mut Random) -> Vec<u8> {
    let length = match random.below(400) {
        0 => random.pick(&[65_535, 65_536, 65_537]),
        1 => random.between(1000, 65_536),
        2..=99 => random.below(6),
        100..=249 => random.below(40),
        _ => random.below(400),
    };
    let mut made = match random.below(4) {
        0 => bytes(random, length, &[0, 0, 2]),
        1 => bytes(random, length, &[0, 0, 0, 2, 2, 1, 3, 0xFF]),
        2 => bytes(random, length, &[0, 2, 0x80, 0x40, 0x08, 0x7F, 0x22]),
        _ => (0..length).map(|_| random.byte()).collect(),
    };
    let hole = random.index(made.len() + 1);
    if made.len() >= hole + 3 {
        made[hole..hole + 3].copy_from_slice(&[0, 0, 2]);
    }
    made
}

/// Bytes that end with the first `kept` bits of an Exp-Golomb number of so many zeros, and the place where it begins. Where
/// more are kept than it has, other bits follow it.
pub fn cut_number(zeros: u64, kept: u64) -> (Vec<u8>, u64) {
    let place = (8 - kept % 8) % 8;
    let first_one = place + zeros;
    let is_one = |&i: &u64| i < place || i == first_one || (i > first_one && i % 3 != 0);
    let mut bytes = vec![0; ((place + kept) / 8) as usize];
    for i in (0..place + kept).filter(is_one) {
        bytes[(i / 8) as usize] |= 0x80 >> (i % 8);
    }
    (bytes, place)
}

/// A payload for bins: any bits, or long runs of zeros or ones; rarely over the limit.
pub fn bins_payload(random: &mut Random) -> Vec<u8> {
    let length = match random.below(400) {
        0 => random.pick(&[65_535, 65_536, 65_537]),
        1..=5 => random.between(200, 3000),
        6..=149 => random.below(8),
        _ => random.below(120),
    };
    match random.below(6) {
        0 => bytes(random, length, &[0, 0, 0, 0, 0, 0, 0, 1, 0x10]),
        1 => bytes(random, length, &[0xFF, 0xFF, 0xFF, 0xFE, 0xBF]),
        2 => bytes(random, length, &[0, 0x80, 0xFF, 0x55, 0xAA]),
        _ => (0..length).map(|_| random.byte()).collect(),
    }
}

/// A number from 0 to `most`, often at or next to its limits.
fn up_to(random: &mut Random, most: u64) -> u64 {
    match random.below(6) {
        0 => 0,
        1 => most,
        2 => most.min(1),
        3 => most.saturating_sub(1),
        _ => random.between(0, most),
    }
}

/// One more than `most`, or something far off.
fn over(random: &mut Random, most: u64) -> u64 {
    match random.below(4) {
        0 => u64::MAX,
        1 => random.word().max(most + 1),
        _ => most + 1,
    }
}

/// rS and valueS: mostly equal or close, where the decision between the bins is.
fn pair_of_s(random: &mut Random) -> (u64, u64) {
    let vs = match random.below(4) {
        0 => up_to(random, 524_288),
        1 => 0,
        _ => random.below(12),
    };
    let rs = match random.below(4) {
        0 => up_to(random, vs),
        1 => vs.saturating_sub(1),
        _ => vs,
    };
    (rs, vs)
}

/// A bit place: mostly with bits left to read.
fn place(random: &mut Random, bits: u64) -> u64 {
    match random.below(8) {
        0 => bits,
        1 => bits.saturating_sub(random.below(24)),
        2 => 0,
        3 => bits.min(9),
        _ => random.between(0, bits),
    }
}

/// A state for a payload of so many bits; once in six outside its ranges in one field.
pub fn state(random: &mut Random, bits: u64) -> State {
    let bits = bits.min(524_288);
    let (rs, vs) = pair_of_s(random);
    let (rt, vt) = (up_to(random, 255), up_to(random, 255));
    let mut made = State {
        rs,
        rt,
        vs,
        vt,
        place: place(random, bits),
    };
    if !random.once_in(6) {
        return made;
    }
    match random.below(5) {
        0 => made.rs = over(random, vs),
        1 => made.vs = over(random, 524_288),
        2 => made.rt = over(random, 255),
        3 => made.vt = over(random, 255),
        _ => made.place = over(random, bits),
    }
    made
}

/// States at a place from which other bins than the predicted one come, and these want bits: the borrowed one, those that
/// double the range, and those that bring valueT to 256.
pub fn states_that_want(place: u64) -> Vec<State> {
    let borrowing = [(3, 0, 3, 0), (3, 0, 3, 100), (3, 0, 3, 255), (2, 0, 3, 255)];
    let others = [(3, 255, 3, 255), (3, 255, 3, 254), (0, 255, 0, 0)];
    let all = borrowing.into_iter().chain(others);
    all.map(|(rs, rt, vs, vt)| State { rs, rt, vs, vt, place }).collect()
}

/// Bits that a bin wants where its value is 0 and a 1 comes next: the value has to reach 256.
pub const WANTED_BY_ZERO: u64 = 9;
/// The limits of an lg, which are those of bypass and of the stuffing bin.
const GREATEST_LG: u64 = 1023;
const LEAST_LG: u64 = 4;

/// So many bytes for a bin that wants so many bits from a place on, of a payload with an end: zeros that keep the value at 0
/// as long as that takes, be it past the end, then a 1 and other bits up to the end. All else are ones, which a reader that
/// strays would see.
pub fn payload_that_wants(wanted: u64, place: u64, end: u64, length: u64) -> Vec<u8> {
    let first_one = place + wanted.saturating_sub(WANTED_BY_ZERO);
    let is_one = |&i: &u64| i < place || i == first_one || (i > first_one && (i >= end || i % 3 != 0));
    let mut bytes = vec![0; length as usize];
    for i in (0..8 * length).filter(is_one) {
        bytes[(i / 8) as usize] |= 0x80 >> (i % 8);
    }
    bytes
}

/// States at the place of such a payload, each with the lg of a bin that is not the predicted one and wants so many bits: as
/// the range is, borrowed, and borrowed where valueS is less, which never wants more than nine bits and nine only of a 0. With
/// the least lg the range is doubled eight times, so that no fewer bits are wanted.
pub fn states_that_use(wanted: u64, place: u64) -> Vec<(State, u64)> {
    let value = 256_u64 >> wanted;
    let mut all = vec![((3, 255, 3, value), GREATEST_LG), ((2, 1, 3, value + 2), GREATEST_LG)];
    if wanted <= WANTED_BY_ZERO + 1 {
        all.push(((3, 254, 3, value.saturating_sub(1)), GREATEST_LG));
    }
    if value <= 1 {
        all.push(((3, 255, 3, 254 + value), LEAST_LG));
    }
    if value == 0 {
        all.push(((2, 0, 3, 255), LEAST_LG));
    }
    if wanted == WANTED_BY_ZERO {
        all.push(((3, 0, 3, 0), LEAST_LG));
    }
    let of = |(rs, rt, vs, vt)| State { rs, rt, vs, vt, place };
    all.into_iter().map(|(state, lg)| (of(state), lg)).collect()
}

/// A context; once in eight outside its ranges in one field.
pub fn context(random: &mut Random) -> Context {
    let lg = match random.below(4) {
        0 => 4 + up_to(random, 12),
        1 => 1023 - up_to(random, 260),
        _ => 4 + up_to(random, 1019),
    };
    let mut made = Context {
        mps: random.below(2),
        lg,
        cycno: random.below(4),
    };
    if !random.once_in(8) {
        return made;
    }
    match random.below(4) {
        0 => made.mps = over(random, 1),
        1 => made.lg = over(random, 1023),
        2 => made.lg = random.below(4),
        _ => made.cycno = over(random, 3),
    }
    made
}
