//! Single bits, and the two ways the document reads them: fields of a body, and bits of a payload.

use crate::refusals::{payload_out, unread, with_bit, without_bit, Fault, Unread};
use crate::refusals::{MARKER, PAYLOAD_LIMIT, SHORT, STUFFING, TOO_LONG};

/// Bit `i` of the bytes, most significant first.
pub(crate) fn bit(bytes: &[u8], i: u64) -> Option<bool> {
    let index = usize::try_from(i / 8).ok()?;
    let byte = *bytes.get(index)?;
    Some((byte >> (7 - i % 8)) & 1 == 1)
}

/// Reads a body's fields from its first bit on (section "Layouts").
pub(crate) struct Fields<'a> {
    body: &'a [u8],
    place: u64,
}

impl<'a> Fields<'a> {
    pub(crate) fn new(body: &'a [u8]) -> Self {
        Fields { body, place: 0 }
    }

    /// The bit that the next field begins at.
    pub(crate) fn place(&self) -> u64 {
        self.place
    }

    /// The next `width` bits as a number, at most 32 of them.
    pub(crate) fn number(&mut self, width: u32) -> Result<u32, Fault> {
        let mut value = 0;
        for _ in 0..width {
            let one = bit(self.body, self.place).ok_or(without_bit(SHORT))?;
            value = 2 * value + u32::from(one);
            self.place += 1;
        }
        Ok(value)
    }

    /// The next `width` bits as a number; where it is not allowed, the refusal `refused` at the field's first bit.
    pub(crate) fn judged(&mut self, width: u32, refused: u32, allowed: impl Fn(u32) -> bool) -> Result<u32, Fault> {
        let first = self.place;
        let value = self.number(width)?;
        if allowed(value) {
            Ok(value)
        } else {
            Err(with_bit(refused, first))
        }
    }

    pub(crate) fn marker(&mut self) -> Result<(), Fault> {
        self.judged(1, MARKER, |one| one == 1).map(|_| ())
    }

    /// One 1 bit, zeros to the byte's end, then only zero bytes.
    pub(crate) fn stuffing(&mut self) -> Result<(), Fault> {
        if self.number(1)? != 1 {
            return Err(without_bit(STUFFING));
        }
        while let Some(one) = bit(self.body, self.place) {
            if one {
                return Err(without_bit(STUFFING));
            }
            self.place += 1;
        }
        Ok(())
    }
}

/// A payload's bits: the first `count`, or all that the bytes hold where that is fewer.
pub(crate) struct Payload<'a> {
    bytes: &'a [u8],
    pub(crate) count: u64,
    pub(crate) place: u64,
}

impl<'a> Payload<'a> {
    /// TOO LONG looks at the bytes lent, whatever the bit count.
    pub(crate) fn open(bytes: &'a [u8], count: u64, place: u64) -> Result<Self, Unread> {
        if bytes.len() > PAYLOAD_LIMIT {
            return Err(unread(TOO_LONG));
        }
        let held = 8 * bytes.len() as u64;
        Ok(Payload {
            bytes,
            count: count.min(held),
            place,
        })
    }

    /// The next `width` bits in one read, as a number: all of them or none, and a missing bit is never taken for a zero.
    pub(crate) fn read(&mut self, width: u32) -> Result<u64, Unread> {
        // Of a place past the end none are there, as at the end.
        let there = (self.place..self.count).take(width as usize);
        let missing = width - there.clone().count() as u32;
        if missing > 0 {
            return Err(payload_out(missing));
        }
        let bits = there.filter_map(|i| bit(self.bytes, i));
        let value = bits.fold(0, |value, one| 2 * value + u64::from(one));
        self.place += u64::from(width);
        Ok(value)
    }
}

#[cfg(test)]
mod tests {
    use super::*;

    const BYTES: [u8; 5] = [0x9A, 0x3C, 0x5D, 0xE7, 0x01];

    /// Every read of up to 32 bits of every payload of up to 40 bits, from every place up to some past the end.
    #[test]
    fn a_read_takes_all_its_bits_or_none() {
        let all = BYTES.iter().fold(0, |value, &byte| value << 8 | u64::from(byte));
        for (count, place) in (0..=42).flat_map(|count| (0..=50).map(move |place| (count, place))) {
            let left = count.min(40_u64).saturating_sub(place);
            for width in 0..=32 {
                let mut payload = Payload::open(&BYTES, count, place).unwrap();
                let read = payload.read(width);
                let wanted = u64::from(width);
                if wanted <= left {
                    let value = (all >> (40 - place.min(40) - wanted)) & ((1 << wanted) - 1);
                    assert_eq!((read, payload.place), (Ok(value), place + wanted));
                } else {
                    let missing = Some((wanted - left) as u32);
                    assert_eq!((read, payload.place), (Err(Unread { number: 14, missing }), place));
                }
            }
        }
    }

    /// The count's own limits, and the place's.
    #[test]
    fn far_off_places_are_the_end() {
        for (count, place) in [(u64::MAX, u64::MAX), (0, u64::MAX), (u64::MAX, 41), (39, 1 << 33)] {
            let mut payload = Payload::open(&BYTES, count, place).unwrap();
            assert_eq!(payload.read(0), Ok(0));
            for width in 1..=32 {
                assert_eq!(payload.read(width), Err(payload_out(width)));
            }
            assert_eq!(payload.place, place);
        }
    }
}
