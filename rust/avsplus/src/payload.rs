//! Payloads: bytes with the count of their bits; escape bits and Exp-Golomb numbers.

use std::borrow::Cow;
use std::fmt;

use avsplus_sys as sys;

use crate::calls;
use crate::refused::{answered, was_read, Reason, Refused};

/// The most bytes of a payload.
pub const LONGEST_PAYLOAD: usize = sys::AVSPLUS_LONGEST_PAYLOAD as usize;

/// A payload: bytes, and how many of their bits are its own. What fills the last byte after them is never read.
///
/// ```
/// use avsplus::{remove_escapes, Reason};
///
/// // Two bits fill the last byte. At bit 8 a number is coded whose last bit is not there.
/// let payload = remove_escapes(&[0xFF, 0x00, 0x00, 0x02, 0x40, 0x01, 0x01])?;
/// assert_eq!((payload.bits(), payload.bytes().len()), (54, 7));
/// assert_eq!(payload.unsigned_golomb(8).unwrap_err().reason, Reason::PayloadOut { missing: 1 });
/// # Ok::<(), avsplus::Refused>(())
/// ```
#[derive(Clone)]
pub struct Payload<'a> {
    bytes: Cow<'a, [u8]>,
    bits: usize,
}

impl fmt::Debug for Payload<'_> {
    /// How long it is, and not its bytes, which may be many.
    fn fmt(&self, f: &mut fmt::Formatter<'_>) -> fmt::Result {
        let bytes = self.bytes.len();
        f.debug_struct("Payload")
            .field("bytes", &bytes)
            .field("bits", &self.bits)
            .finish()
    }
}

impl<'a> Payload<'a> {
    /// The first `bits` bits of `bytes`, or all where there are fewer. No escape bits are removed.
    ///
    /// ```
    /// use avsplus::Payload;
    ///
    /// assert_eq!(Payload::first_bits(&[0xA0], 3).bits(), 3);
    /// assert_eq!(Payload::first_bits(&[0xA0], 30).bits(), 8);
    /// ```
    pub fn first_bits(bytes: &'a [u8], bits: usize) -> Payload<'a> {
        Payload {
            bits: bits.min(bytes.len().saturating_mul(8)),
            bytes: Cow::Borrowed(bytes),
        }
    }

    /// All bits of `bytes`: for bytes of which none is filled up.
    pub fn whole(bytes: &'a [u8]) -> Payload<'a> {
        Payload::first_bits(bytes, usize::MAX)
    }

    /// The same with bytes of its own.
    #[must_use]
    pub fn into_owned(self) -> Payload<'static> {
        Payload {
            bytes: Cow::Owned(self.bytes.into_owned()),
            bits: self.bits,
        }
    }

    /// Its bytes; bits of theirs that are not the payload's may follow its last one.
    pub fn bytes(&self) -> &[u8] {
        &self.bytes
    }

    /// How many bits it has.
    pub fn bits(&self) -> usize {
        self.bits
    }

    /// The Exp-Golomb number at bit `place`, and the place after it. The zeros before its first 1, and that 1, are read bit by bit;
    /// the bits after it, as many as the zeros, are one read.
    ///
    /// ```
    /// use avsplus::{Payload, Reason};
    ///
    /// assert_eq!(Payload::first_bits(&[0b1000_0000], 1).unsigned_golomb(0), Ok((0, 1)));
    /// assert_eq!(Payload::first_bits(&[0b0100_0000], 3).unsigned_golomb(0), Ok((1, 3)));
    /// let payload = Payload::first_bits(&[0b0110_0000], 3);
    /// assert_eq!(payload.unsigned_golomb(0), Ok((2, 3)));
    /// assert_eq!(payload.unsigned_golomb(3).unwrap_err().reason, Reason::PayloadOut { missing: 1 });
    /// // Three zeros and a 1, and none of three bits.
    /// let cut = Payload::first_bits(&[0b0001_0000], 4).unsigned_golomb(0).unwrap_err();
    /// assert_eq!(cut.reason, Reason::PayloadOut { missing: 3 });
    /// assert_eq!(cut.to_string(), "PAYLOAD OUT (14): 3 more bits were wanted than the payload holds");
    /// ```
    pub fn unsigned_golomb(&self, place: usize) -> Result<(u32, usize), Refused> {
        let golomb = calls::unsigned_golomb(&self.bytes, self.bits, place)?;
        was_read(golomb.status, golomb.missing)?;
        match golomb.number {
            sys::AVSPLUS_NO_NUMBER => Err(Reason::Malformed.into()),
            number => Ok((number, golomb.place)),
        }
    }

    /// The same as a signed number.
    ///
    /// ```
    /// use avsplus::Payload;
    ///
    /// assert_eq!(Payload::first_bits(&[0b0100_0000], 3).signed_golomb(0), Ok((1, 3)));
    /// assert_eq!(Payload::first_bits(&[0b0110_0000], 3).signed_golomb(0), Ok((-1, 3)));
    /// ```
    pub fn signed_golomb(&self, place: usize) -> Result<(i32, usize), Refused> {
        let signed = calls::signed_golomb(&self.bytes, self.bits, place)?;
        was_read(signed.status, signed.missing)?;
        match signed.number {
            sys::AVSPLUS_NO_SIGNED_NUMBER => Err(Reason::Malformed.into()),
            number => Ok((number, signed.place)),
        }
    }
}

/// Removes escape bits: the payload that is left, packed, its last byte filled with zeros.
///
/// ```
/// let payload = avsplus::remove_escapes(&[0x00, 0x00, 0x02, 0xC0])?;
/// assert_eq!((payload.bytes(), payload.bits()), (&[0x00, 0x00, 0x03, 0x00][..], 30));
/// # Ok::<(), avsplus::Refused>(())
/// ```
pub fn remove_escapes(raw: &[u8]) -> Result<Payload<'static>, Refused> {
    // A longer one is TOO LONG whatever is lent.
    let mut bytes = vec![0; raw.len().min(LONGEST_PAYLOAD)];
    let bits = remove_escapes_into(raw, &mut bytes)?.bits;
    bytes.truncate(bytes_of(bits));
    Ok(Payload {
        bytes: Cow::Owned(bytes),
        bits,
    })
}

/// The same into lent memory; later bytes stay. FULL where `output` is shorter than `raw`.
///
/// ```
/// use avsplus::Reason;
///
/// let raw = [0x00, 0x00, 0x02, 0xC0];
/// let mut output = [0xFF; 5];
/// assert_eq!(avsplus::remove_escapes_into(&raw, &mut output)?.bits(), 30);
/// assert_eq!(output, [0x00, 0x00, 0x03, 0x00, 0xFF]);
/// assert_eq!(avsplus::remove_escapes_into(&raw, &mut output[..3]).unwrap_err().reason, Reason::Full);
/// # Ok::<(), avsplus::Refused>(())
/// ```
pub fn remove_escapes_into<'a>(raw: &[u8], output: &'a mut [u8]) -> Result<Payload<'a>, Refused> {
    let bits = answered(calls::remove_escapes(raw, output)?)?;
    let bytes = output.get(..bytes_of(bits)).ok_or(Reason::Malformed)?;
    Ok(Payload::first_bits(bytes, bits))
}

/// How many bytes so many bits take.
fn bytes_of(bits: usize) -> usize {
    bits / 8 + usize::from(bits % 8 != 0)
}
