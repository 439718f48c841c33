//! Section "Escape removal" and the Exp-Golomb numbers.

use crate::bits::{bit, Payload};
use crate::refusals::{unread, Unread, FULL, PAYLOAD_LIMIT, TOO_LONG, VALUE};

/// How many bits of raw byte `i` are kept: six for 02 after two raw 00, else eight.
fn kept_bits(payload: &[u8], i: usize) -> u64 {
    let escaped = i >= 2 && payload[i - 2..=i] == [0, 0, 2];
    if escaped {
        6
    } else {
        8
    }
}

/// The payload's bits without its escape bits.
fn kept(payload: &[u8]) -> Vec<bool> {
    let mut bits = Vec::new();
    for i in 0..payload.len() {
        let first = 8 * i as u64;
        bits.extend((first..first + kept_bits(payload, i)).filter_map(|b| bit(payload, b)));
    }
    bits
}

/// Eight bits or fewer as a byte, filled with zeros.
fn pack(bits: &[bool]) -> u8 {
    bits.iter()
        .enumerate()
        .fold(0, |byte, (i, &one)| byte | (u8::from(one) << (7 - i)))
}

/// Removes the escape bits; answers the bit count. The output stays untouched on a refusal.
pub fn unescape(payload: &[u8], output: &mut [u8]) -> Result<u64, u32> {
    if payload.len() > PAYLOAD_LIMIT {
        return Err(TOO_LONG);
    }
    if output.len() < payload.len() {
        return Err(FULL);
    }
    let bits = kept(payload);
    for (byte, eight) in output.iter_mut().zip(bits.chunks(8)) {
        *byte = pack(eight);
    }
    Ok(bits.len() as u64)
}

/// An Exp-Golomb number from bit `place` on, and the place after it.
pub fn golomb(bytes: &[u8], count: u64, place: u64) -> Result<(u32, u64), Unread> {
    let mut payload = Payload::open(bytes, count, place)?;
    let mut zeros = 0;
    while payload.read(1)? == 0 {
        zeros += 1;
        // The 32nd zero settles it, whatever follows.
        if zeros == 32 {
            return Err(unread(VALUE));
        }
    }
    let b = payload.read(zeros)?;
    let number = (1_u64 << zeros) - 1 + b; // at most 2^32 - 2
    Ok((number as u32, payload.place))
}

/// A signed Exp-Golomb number from bit `place` on, and the place after it.
pub fn signed_golomb(bytes: &[u8], count: u64, place: u64) -> Result<(i32, u64), Unread> {
    let (number, after) = golomb(bytes, count, place)?;
    let n = i64::from(number);
    let signed = if n % 2 == 1 { (n + 1) / 2 } else { -(n / 2) };
    Ok((signed as i32, after)) // at most 2^31 - 1 either way
}
