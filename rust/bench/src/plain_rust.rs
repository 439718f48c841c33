//! The plain Rust rivals: safe, and by the same algorithms. Each entry is a call, as from another crate.
use crate::library::{Answer, Context, State, Unread, NO_BIT};
pub use crate::plain_rust_filing::file;

/// A status, by the library's numbers.
pub mod status {
    pub const DONE: u32 = 0;
    pub const NO_CODE: u32 = 1;
    pub const CUT: u32 = 2;
    pub const OVERLAP: u32 = 3;
    pub const UNKNOWN: u32 = 4;
    pub const OUT_OF_PLACE: u32 = 5;
    pub const SHORT: u32 = 6;
    pub const MARKER: u32 = 7;
    pub const STUFFING: u32 = 9;
    pub const TWICE: u32 = 10;
    pub const UNENDED: u32 = 11;
    pub const FULL: u32 = 12;
    pub const TOO_LONG: u32 = 13;
    pub const PAYLOAD_OUT: u32 = 14;
    pub const BAD_STATE: u32 = 15;
    pub const VALUE_WIDTH: u32 = 20;
    pub const VALUE_HEIGHT: u32 = 21;
    pub const VALUE_CHROMA: u32 = 22;
    pub const VALUE_PRECISION: u32 = 23;
    pub const VALUE_ASPECT: u32 = 24;
    pub const VALUE_RATE: u32 = 25;
    pub const VALUE_TRANSFER: u32 = 26;
    pub const VALUE_MATRIX: u32 = 27;
    pub const VALUE_STEREO: u32 = 28;
    pub const VALUE_COPYRIGHT_OWNER: u32 = 29;
    pub const VALUE_COPYRIGHT_NUMBER: u32 = 30;
    pub const VALUE_SLICE_ORDER: u32 = 31;
    pub const VALUE_SLICE_ROW: u32 = 32;
}

const LONGEST_PAYLOAD: usize = 65536;

// ── bits and start codes ──

fn read_bit(bytes: &[u8], count: usize, place: usize) -> Option<u32> {
    if count <= place {
        return None;
    }
    bytes.get(place / 8).map(|&byte| u32::from(byte) >> (7 - place % 8) & 1)
}

/// PAYLOAD OUT with so many bits missing.
fn payload_out(missing: usize) -> Unread {
    Unread {
        status: status::PAYLOAD_OUT,
        missing: missing as u32,
    }
}

/// A refusal for which no bit is missing.
fn unread(status: u32) -> Unread {
    Unread { status, missing: 0 }
}

/// All bits of a read, or none of them and how many are missing.
fn read_bits(bytes: &[u8], count: usize, place: usize, width: usize) -> Result<u32, Unread> {
    (0..width).try_fold(0, |value, k| match read_bit(bytes, count, place + k) {
        Some(bit) => Ok(value * 2 + bit),
        None => Err(payload_out(width - k)),
    })
}

/// Looks at the third byte of a prefix: one over 1 rules out three places, a 0 one place.
#[inline(never)]
pub fn next_by_three(stream: &[u8], from: usize) -> usize {
    let mut at = from.saturating_add(2);
    while let Some(&byte) = stream.get(at) {
        match byte {
            0 => at += 1,
            1 if stream[at - 2..at] == [0, 0] => return at - 2,
            _ => at += 3,
        }
    }
    stream.len()
}

#[inline(never)]
pub fn next_by_windows(stream: &[u8], from: usize) -> usize {
    let rest = stream.get(from..).unwrap_or(&[]);
    rest.windows(3)
        .position(|three| three == [0, 0, 1])
        .map_or(stream.len(), |at| from + at)
}

// ── escape removal ──

#[derive(Default)]
struct Packer {
    full: usize,
    value: u32,
    k: u32,
}

impl Packer {
    fn push(&mut self, output: &mut [u8], byte: u8, width: u32) {
        for j in 0..width {
            self.value = self.value << 1 | u32::from(byte) >> (7 - j) & 1;
            self.k += 1;
            if self.k == 8 {
                output[self.full] = self.value as u8;
                *self = Packer {
                    full: self.full + 1,
                    ..Packer::default()
                };
            }
        }
    }

    fn finish(self, output: &mut [u8]) -> usize {
        if self.k != 0 {
            output[self.full] = (self.value << (8 - self.k)) as u8;
        }
        self.full * 8 + self.k as usize
    }
}

#[inline(never)]
pub fn remove_escapes(raw: &[u8], output: &mut [u8]) -> Answer {
    let refused = |status| Answer {
        status,
        offset: 0,
        count: 0,
        bit: NO_BIT,
    };
    if LONGEST_PAYLOAD < raw.len() {
        return refused(status::TOO_LONG);
    }
    if output.len() < raw.len() {
        return refused(status::FULL);
    }
    let mut packer = Packer::default();
    let mut zeros = 0;
    for &byte in raw {
        let width = if zeros >= 2 && byte == 2 { 6 } else { 8 };
        packer.push(output, byte, width);
        zeros = if byte == 0 { zeros + 1 } else { 0 };
    }
    Answer {
        status: 0,
        offset: 0,
        count: packer.finish(output),
        bit: NO_BIT,
    }
}

// ── bins ──

fn good_state(x: &State, end: usize) -> bool {
    x.rs <= x.vs && x.vs <= 524_288 && x.rt <= 255 && x.vt <= 255 && x.place <= end
}

fn good_context(c: &Context) -> bool {
    c.mps <= 1 && (4..=1023).contains(&c.lg) && c.cycno <= 3
}

/// A payload, with the place of the next bit.
struct Bits<'a> {
    bytes: &'a [u8],
    count: usize,
    place: usize,
}

impl Bits<'_> {
    fn double(&mut self, value: u32) -> Result<u32, Unread> {
        let bit = read_bit(self.bytes, self.count, self.place).ok_or_else(|| payload_out(1))?;
        self.place += 1;
        Ok(value * 2 + bit)
    }

    /// The state of a value that is doubled, with the next bits, while it is below 256.
    fn settle(mut self, rt: u32, mut value: u32) -> Result<State, Unread> {
        let mut vs = 0;
        while value < 256 {
            value = self.double(value)?;
            vs += 1;
        }
        Ok(State {
            rs: 0,
            rt,
            vs,
            vt: value % 256,
            place: self.place,
        })
    }
}

#[inline(never)]
pub fn start(bytes: &[u8], count: usize) -> Result<State, Unread> {
    if LONGEST_PAYLOAD < bytes.len() {
        return Err(unread(status::TOO_LONG));
    }
    let value = read_bits(bytes, count, 0, 9)?;
    Bits { bytes, count, place: 9 }.settle(255, value)
}

fn step(mut bits: Bits, x: &State, c: &Context) -> Result<(u32, State), Unread> {
    let q = c.lg / 4;
    let (s, t, mut range) = if q <= x.rt {
        (x.rs, x.rt - q, q)
    } else {
        (x.rs + 1, 256 + x.rt - q, x.rt + q)
    };
    if s < x.vs || (s == x.vs && x.vt < t) {
        return Ok((c.mps, State { rs: s, rt: t, ..*x }));
    }
    let mut value = if s == x.vs { x.vt - t } else { 256 + bits.double(x.vt)? - t };
    while range < 256 {
        value = bits.double(value)?;
        range *= 2;
    }
    Ok((1 - c.mps, bits.settle(range % 256, value)?))
}

fn updated(c: &Context, bin: u32) -> Context {
    let (w, gain) = match c.cycno {
        0 | 1 => (3, 197),
        2 => (4, 95),
        _ => (5, 46),
    };
    if bin == c.mps {
        return Context {
            mps: c.mps,
            lg: c.lg - (c.lg >> w) - (c.lg >> (w + 2)),
            cycno: c.cycno.max(1),
        };
    }
    let cycno = (c.cycno + 1).min(3);
    let more = c.lg + gain;
    if more <= 1023 {
        return Context { lg: more, cycno, ..*c };
    }
    Context {
        mps: 1 - c.mps,
        lg: 2047 - more,
        cycno,
    }
}

/// A bin; state and context stay for a refusal.
#[inline(never)]
pub fn decode(bytes: &[u8], count: usize, state: &mut State, context: &mut Context) -> Result<u32, Unread> {
    if LONGEST_PAYLOAD < bytes.len() {
        return Err(unread(status::TOO_LONG));
    }
    if !good_state(state, count.min(bytes.len() * 8)) || !good_context(context) {
        return Err(unread(status::BAD_STATE));
    }
    let place = state.place;
    let (bin, next) = step(Bits { bytes, count, place }, state, context)?;
    *state = next;
    *context = updated(context, bin);
    Ok(bin)
}
