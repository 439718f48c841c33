//! Inputs, the same in every run.

/// Pseudo-random numbers (splitmix64).
pub struct Random(u64);

impl Random {
    pub fn new(seed: u64) -> Random {
        Random(seed)
    }

    pub fn next(&mut self) -> u64 {
        self.0 = self.0.wrapping_add(0x9E37_79B9_7F4A_7C15);
        let mut z = self.0;
        z = (z ^ z >> 30).wrapping_mul(0xBF58_476D_1CE4_E5B9);
        z = (z ^ z >> 27).wrapping_mul(0x94D0_49BB_1331_11EB);
        z ^ z >> 31
    }

    /// From `least` on and below `most`.
    pub fn within(&mut self, least: usize, most: usize) -> usize {
        least + self.next() as usize % (most - least)
    }

    pub fn bytes(&mut self, count: usize) -> Vec<u8> {
        (0..count).map(|_| self.next() as u8).collect()
    }
}

/// What a recording is made of.
pub struct Shape {
    pub length: usize,
    /// Pictures of a group, and slices of a picture.
    pub pictures: usize,
    pub slices: usize,
    /// Bytes of a slice: from the first on and below the second.
    pub slice: (usize, usize),
    /// A slice's body of so many bytes.
    pub body: Body,
}

pub type Body = fn(&mut Random, usize) -> Vec<u8>;

const HEADER: [u8; 15] = [
    0x48, 0x40, 0x0F, 0x00, 0x21, 0xC2, 0x4C, 0xC4, 0xE2, 0x08, 0x00, 0x20, 0x02, 0x00, 0x80,
];
const DISPLAY: [u8; 6] = [0x22, 0x0F, 0x01, 0x10, 0xE0, 0x80];
const COLOURED_DISPLAY: [u8; 9] = [0x23, 0x80, 0x80, 0x80, 0x8F, 0x01, 0x21, 0xC0, 0x80];

/// What is kept free before the last slice: a group's head, a picture header and the sequence end.
const HEADROOM: usize = 100;

/// A good recording of exactly `shape.length` bytes: 1920 by 1080, each group with a display extension and user data.
pub fn recording(shape: &Shape) -> Vec<u8> {
    let mut random = Random::new(1);
    let mut stream = Vec::with_capacity(shape.length);
    for picture in 0.. {
        if picture % shape.pictures == 0 {
            group_head(&mut stream, &mut random);
        }
        let code = if picture % shape.pictures == 0 { 0xB3 } else { 0xB6 };
        push_unit(&mut stream, code, &body(&mut random, 8));
        if push_slices(&mut stream, &mut random, shape) {
            break;
        }
    }
    push_unit(&mut stream, 0xB1, &[]);
    stream
}

fn push_unit(stream: &mut Vec<u8>, code: u8, body: &[u8]) {
    stream.extend_from_slice(&[0, 0, 1, code]);
    stream.extend_from_slice(body);
}

fn group_head(stream: &mut Vec<u8>, random: &mut Random) {
    push_unit(stream, 0xB0, &HEADER);
    push_unit(stream, 0xB5, &COLOURED_DISPLAY);
    push_unit(stream, 0xB2, &body(random, 16));
}

/// The slices of a picture; true where the recording is as long as asked.
fn push_slices(stream: &mut Vec<u8>, random: &mut Random, shape: &Shape) -> bool {
    for slice in 0..shape.slices {
        let size = random.within(shape.slice.0, shape.slice.1);
        let left = shape.length - stream.len() - 8;
        let last = left < size + HEADROOM;
        let body = (shape.body)(random, if last { left } else { size });
        push_unit(stream, slice as u8, &body);
        if last {
            return true;
        }
    }
    false
}

/// A group of one slice, of so many lines, and an ending: good where the slice is in its rows.
pub fn one_slice(progressive: bool, lines: u32, slice: u8) -> Vec<u8> {
    let mut header = HEADER;
    header[2] |= u8::from(progressive) << 7;
    header[4] = (lines >> 5) as u8;
    header[5] = header[5] & 7 | (lines << 3) as u8;
    let mut stream = Vec::new();
    push_unit(&mut stream, 0xB0, &header);
    push_unit(&mut stream, 0xB3, &[0x80]);
    push_unit(&mut stream, slice, &[0x80]);
    push_unit(&mut stream, 0xB1, &[]);
    stream
}

/// A good recording of two groups with a body of every layout: any field can be ruled out by one byte of it.
pub fn all_layouts() -> Vec<u8> {
    const COPYRIGHT: [u8; 12] = [0x48, 0x8C, 0x04, 0x00, 0x00, 0x60, 0x00, 0x01, 0x40, 0x00, 0x03, 0x80];
    let mut header = HEADER;
    // 1088 lines.
    header[4..6].copy_from_slice(&[0x22, 0x02]);
    let mut stream = Vec::new();
    for display in [&DISPLAY[..], &COLOURED_DISPLAY] {
        push_unit(&mut stream, 0xB0, &header);
        push_unit(&mut stream, 0xB5, display);
        push_unit(&mut stream, 0xB5, &COPYRIGHT);
        push_unit(&mut stream, 0xB3, &[0x80]);
        push_unit(&mut stream, 0xB5, &COPYRIGHT);
        push_unit(&mut stream, 3, &[0x80]);
        push_unit(&mut stream, 7, &[0x80]);
    }
    push_unit(&mut stream, 0xB1, &[]);
    stream
}

/// What stands between a head's display extension and its picture.
const HEAD_ITEMS: usize = 24;

/// A good recording of at least `length` bytes, nearly all heads: to each group a display extension, copyright and opaque
/// extensions and user data, and one picture of one slice, a byte each.
pub fn heads(length: usize) -> Vec<u8> {
    let mut random = Random::new(7);
    let mut stream = Vec::new();
    while stream.len() < length {
        push_head(&mut stream, &mut random);
        push_unit(&mut stream, 0xB3, &[0x80]);
        push_unit(&mut stream, 0x00, &[0x80]);
    }
    push_unit(&mut stream, 0xB1, &[]);
    stream
}

fn push_head(stream: &mut Vec<u8>, random: &mut Random) {
    push_unit(stream, 0xB0, &HEADER);
    let display: &[u8] = if random.next() % 2 == 0 { &DISPLAY } else { &COLOURED_DISPLAY };
    push_unit(stream, 0xB5, display);
    for _ in 0..HEAD_ITEMS {
        match random.next() % 4 {
            0 => push_unit(stream, 0xB2, &small_body(random)),
            1 => push_unit(stream, 0xB5, &opaque(random)),
            _ => push_unit(stream, 0xB5, &copyright(random)),
        }
    }
}

fn small_body(random: &mut Random) -> Vec<u8> {
    let count = random.within(2, 12);
    body(random, count)
}

/// An extension of number 5 to 15.
fn opaque(random: &mut Random) -> Vec<u8> {
    let mut bytes = small_body(random);
    bytes[0] = (random.within(5, 16) * 16) as u8;
    bytes
}

/// A copyright extension with a claim, an owner and a number.
fn copyright(random: &mut Random) -> Vec<u8> {
    loop {
        let owner = random.within(1, 256) as u128;
        let (reserved, number) = (u128::from(random.next() % 128), u128::from(random.next()));
        let claim = (((4 << 1 | 1) << 8 | owner) << 1 | 1) << 8 | reserved << 1 | 1;
        let parts = (number >> 44 << 1 | 1) << 45 | (number >> 22 & 0x3F_FFFF) << 23 | 1 << 22 | number & 0x3F_FFFF;
        let bytes = ((claim << 66 | parts) << 8 | 0x80).to_be_bytes();
        if bytes.windows(3).skip(4).all(|three| three != [0, 0, 1]) {
            return bytes[4..].to_vec();
        }
    }
}

/// Random bytes that hold no 00 00 01 and do not end in 00.
pub fn body(random: &mut Random, count: usize) -> Vec<u8> {
    let mut bytes = random.bytes(count);
    for i in 2..count {
        if bytes[i - 2..i] == [0, 0] {
            bytes[i] |= 0x80;
        }
    }
    bytes[count - 1] |= 0x80;
    bytes
}

/// A recording with a byte changed, put in or left out, or with its end cut off.
pub fn spoiled(stream: &[u8], random: &mut Random) -> Vec<u8> {
    const BYTES: [u8; 14] = [0, 1, 2, 4, 0x20, 0x40, 0x80, 0xB0, 0xB1, 0xB2, 0xB3, 0xB5, 0xB6, 0xB7];
    let mut bytes = stream.to_vec();
    let at = random.within(0, bytes.len());
    let byte = BYTES[random.within(0, BYTES.len())];
    match random.next() % 4 {
        0 => bytes[at] = byte,
        1 => bytes.insert(at, byte),
        2 => drop(bytes.remove(at)),
        _ => bytes.truncate(at),
    }
    bytes
}

/// Bytes with a start code at each multiple of `apart`.
pub fn start_codes(length: usize, apart: usize) -> Vec<u8> {
    let mut random = Random::new(2);
    let mut stream = Vec::with_capacity(length);
    while stream.len() < length {
        push_unit(&mut stream, 0, &body(&mut random, apart - 4));
    }
    stream.truncate(length);
    stream
}

/// Random bytes 01 to FF.
pub fn no_zeros(random: &mut Random, count: usize) -> Vec<u8> {
    (0..count).map(|_| random.within(1, 256) as u8).collect()
}

/// Some bytes, again and again.
pub fn repeated(bytes: &[u8], length: usize) -> Vec<u8> {
    bytes.iter().copied().cycle().take(length).collect()
}

/// A slice's body: 80, then some bytes again and again.
pub fn filled(bytes: &[u8], count: usize) -> Vec<u8> {
    let mut body = repeated(bytes, count);
    body.insert(0, 0x80);
    body.truncate(count);
    body
}

/// All strings over 00, 01 and 02 of at most so many bytes.
pub fn short_strings(longest: u32) -> impl Iterator<Item = Vec<u8>> {
    let digits = |number: u32, length| (0..length).map(|place| (number / 3_u32.pow(place) % 3) as u8).collect();
    (0..=longest).flat_map(move |length| (0..3_u32.pow(length)).map(move |number| digits(number, length)))
}

/// Random bytes, with 00 00 02 put in for one byte in `apart`.
pub fn with_escapes(length: usize, apart: u64) -> Vec<u8> {
    let mut random = Random::new(3);
    let mut raw = Vec::with_capacity(length + 3);
    while raw.len() < length {
        if random.next() % apart == 0 {
            raw.extend_from_slice(&[0, 0, 2]);
        } else {
            raw.push(random.next() as u8);
        }
    }
    raw.truncate(length);
    raw
}

pub fn random_bytes(length: usize) -> Vec<u8> {
    Random::new(4).bytes(length)
}

/// Short payloads with a bit count: each up to some more than the bytes hold.
pub fn cut_payloads() -> Vec<(Vec<u8>, usize)> {
    let of_bytes = |bytes: Vec<u8>| (0..=bytes.len() * 8 + 9).map(move |bits| (bytes.clone(), bits));
    let all = (0..5).flat_map(|length| [0, 0x55, 0xFF].map(|byte| vec![byte; length]));
    all.flat_map(of_bytes).collect()
}

/// Which context each bin is read by.
pub fn indices(count: usize, contexts: usize) -> Vec<u16> {
    let mut random = Random::new(5);
    (0..count).map(|_| random.within(0, contexts) as u16).collect()
}
