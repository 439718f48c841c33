//! Bodies with a layout, and the ways to spoil them: one table of fields each, written here a second time
//! so that a slip in the decoder's reading order shows.

use super::random::Random;

/// Where a field stands in its body: first bit and width.
#[derive(Clone, Copy)]
pub(super) struct Field(pub usize, pub usize);

/// A body and what may be spoilt in it.
#[derive(Clone)]
pub(super) struct Layout {
    /// Bits before the stuffing.
    pub bits: usize,
    pub markers: &'static [usize],
    pub judged: &'static [(Field, &'static [u64])],
}

pub(super) const HEADER: Layout = Layout {
    bits: 112,
    markers: &[76, 90],
    judged: &[
        (Field(17, 14), &[0]),
        (Field(31, 14), &[0]),
        (Field(45, 2), &[0, 3]),
        (Field(47, 3), &[0, 2, 3, 4, 5, 6, 7]),
        (Field(50, 4), &[0, 5, 6, 7, 8, 15]),
        (Field(54, 4), &[0, 9, 10, 11, 14, 15]),
    ],
};

pub(super) const DISPLAY: Layout = Layout {
    bits: 40,
    markers: &[23],
    judged: &[(Field(38, 2), &[3])],
};

pub(super) const COLOUR_DISPLAY: Layout = Layout {
    bits: 64,
    markers: &[47],
    judged: &[
        (Field(17, 8), &[0, 3, 11, 12, 128, 255]),
        (Field(25, 8), &[0, 3, 8, 9, 10, 128, 255]),
        (Field(62, 2), &[3]),
    ],
};

/// Flag 0, and owner 0, are ruled out only beside other values, so they need not spoil the body.
pub(super) const COPYRIGHT: Layout = Layout {
    bits: 88,
    markers: &[21, 42, 65],
    judged: &[(Field(4, 1), &[0]), (Field(5, 8), &[0])],
};

/// Writes bits, most significant first.
struct Writer(Vec<bool>);

impl Writer {
    fn new() -> Self {
        Writer(Vec::new())
    }

    fn put(&mut self, value: u64, width: usize) {
        for i in (0..width).rev() {
            self.0.push((value >> i) & 1 == 1);
        }
    }

    /// The bytes, after the stuffing bit and up to three zero bytes.
    fn finish(mut self, random: &mut Random) -> Vec<u8> {
        self.put(1, 1);
        let mut bytes = vec![0; (self.0.len() + 7) / 8];
        for (i, &one) in self.0.iter().enumerate() {
            set(&mut bytes, Field(i, 1), u64::from(one));
        }
        bytes.resize(bytes.len() + zeros(random), 0);
        bytes
    }
}

/// How many zero bytes to add after a body: mostly none.
pub(super) fn zeros(random: &mut Random) -> usize {
    random.pick(&[0, 0, 0, 0, 1, 2, 3, 7])
}

/// Sets a field of a body, as far as the body reaches.
pub(super) fn set(body: &mut [u8], field: Field, value: u64) {
    let Field(first, width) = field;
    for i in 0..width {
        let place = first + i;
        let mask = 0x80 >> (place % 8);
        let one = (value >> (width - 1 - i)) & 1 == 1;
        match body.get_mut(place / 8) {
            Some(byte) if one => *byte |= mask,
            Some(byte) => *byte &= !mask,
            None => (),
        }
    }
}

pub(super) fn holds_start_code(body: &[u8]) -> bool {
    body.windows(3).any(|three| three == [0, 0, 1])
}

/// Tries until the body holds no 00 00 01.
fn until_clean(random: &mut Random, make: impl Fn(&mut Random) -> Vec<u8>) -> Vec<u8> {
    loop {
        let body = make(random);
        if !holds_start_code(&body) {
            return body;
        }
    }
}

/// Any value of `width` bits, often the least or the most.
fn any(random: &mut Random, width: usize) -> u64 {
    let most = (1 << width) - 1;
    match random.below(6) {
        0 => 0,
        1 => most,
        _ => random.between(0, most),
    }
}

/// Heights small enough for the slice rule to bite, where a row or a pair of rows is full and a line more, around 2800, above
/// it, and any.
fn height(random: &mut Random) -> u64 {
    match random.below(10) {
        0 => random.between(1, 16),
        1 | 2 => random.between(1, 80),
        3 => random.pick(&[480, 496, 576, 720, 1080, 1088, 2160]),
        4 => 16 * random.between(1, 175) + random.below(2),
        5 => 32 * random.between(1, 87) + random.below(2),
        6 => random.between(2780, 2820),
        7 => random.pick(&[2784, 2785, 2799, 2800, 2801, 2816, 16383]),
        8 => random.between(2801, 16383),
        _ => random.between(1, 2800),
    }
}

/// What a sequence header says that a group's slices are tested by.
#[derive(Clone, Copy)]
pub(super) struct Scan {
    pub progressive: u64,
    pub vertical: u64,
}

impl Scan {
    pub(super) fn any(random: &mut Random) -> Self {
        Scan {
            progressive: random.below(2),
            vertical: height(random),
        }
    }

    /// Macroblock rows, in other words than the decoder's: as many as hold the lines, an even number where progressive is 0.
    pub(super) fn rows(self) -> u64 {
        let rows = (self.vertical + 15) / 16;
        match self.progressive {
            0 => rows + rows % 2,
            _ => rows,
        }
    }
}

pub(super) fn good_header(random: &mut Random, scan: Scan) -> Vec<u8> {
    until_clean(random, |random| {
        let mut writer = Writer::new();
        writer.put(any(random, 8), 8); // profile
        writer.put(any(random, 8), 8); // level
        writer.put(scan.progressive, 1);
        writer.put(any(random, 14).max(1), 14); // horizontal
        writer.put(scan.vertical, 14);
        writer.put(random.between(1, 2), 2); // chroma
        writer.put(1, 3); // precision
        writer.put(random.between(1, 4), 4); // aspect
        writer.put(random.between(1, 8), 4); // rate
        writer.put(any(random, 18), 18); // bit rate low
        writer.put(1, 1);
        writer.put(any(random, 12), 12); // bit rate high
        writer.put(random.below(2), 1); // low delay
        writer.put(1, 1);
        writer.put(any(random, 18), 18); // buffer
        writer.put(any(random, 3), 3); // reserved
        writer.finish(random)
    })
}

pub(super) fn good_display(random: &mut Random, colour: bool) -> Vec<u8> {
    until_clean(random, |random| {
        let mut writer = Writer::new();
        writer.put(2, 4);
        writer.put(any(random, 3), 3); // format
        writer.put(random.below(2), 1); // range
        writer.put(u64::from(colour), 1);
        if colour {
            writer.put(any(random, 8), 8); // primaries
            writer.put(random.pick(&[1, 2, 4, 5, 6, 7, 8, 9, 10]), 8); // transfer
            writer.put(random.pick(&[1, 2, 4, 5, 6, 7]), 8); // matrix
        }
        writer.put(any(random, 14), 14); // width
        writer.put(1, 1);
        writer.put(any(random, 14), 14); // height
        writer.put(random.below(3), 2); // stereo
        writer.finish(random)
    })
}

/// Flag, owner and number, together allowed.
fn rights(random: &mut Random) -> (u64, u64, [u64; 3]) {
    let number = [any(random, 20), any(random, 22), any(random, 22)];
    match random.below(4) {
        0 => (0, 0, [0; 3]),
        1 => (1, 0, [0; 3]),
        _ => (1, any(random, 8).max(1), number),
    }
}

pub(super) fn good_copyright(random: &mut Random) -> Vec<u8> {
    until_clean(random, |random| {
        let (flag, owner, number) = rights(random);
        let mut writer = Writer::new();
        writer.put(4, 4);
        writer.put(flag, 1);
        writer.put(owner, 8);
        writer.put(random.below(2), 1); // original
        writer.put(any(random, 7), 7); // reserved
        writer.put(1, 1);
        writer.put(number[0], 20);
        writer.put(1, 1);
        writer.put(number[1], 22);
        writer.put(1, 1);
        writer.put(number[2], 22);
        writer.finish(random)
    })
}

/// An extension body with one of these numbers and any bytes after it.
pub(super) fn opaque(random: &mut Random, numbers: &[u8]) -> Vec<u8> {
    let number = random.pick(numbers);
    let mut body = vec![number << 4 | random.byte() & 15];
    for _ in 0..random.below(16) {
        body.push(filler(random));
    }
    body.resize(body.len() + zeros(random), 0);
    without_start_code(0xB5, body)
}

/// A byte that is often one of those that start codes are made of.
pub(super) fn filler(random: &mut Random) -> u8 {
    match random.below(3) {
        0 => random.pick(&[0, 0, 0, 1, 2, 0x80, 0xFF]),
        _ => random.byte(),
    }
}

/// Turns the 01 of every 00 00 01 into 03; the code byte counts as standing before the body.
pub(super) fn without_start_code(code: u8, mut body: Vec<u8>) -> Vec<u8> {
    let mut before = [0xFF, code];
    for byte in &mut body {
        if before == [0, 0] && *byte == 1 {
            *byte = 3;
        }
        before = [before[1], *byte];
    }
    body
}

/// Sets one judged field to a value that is ruled out.
pub(super) fn spoil_value(random: &mut Random, layout: &Layout, body: &mut [u8]) {
    let (field, values) = random.pick(layout.judged);
    set(body, field, random.pick(values));
}

pub(super) fn clear_marker(random: &mut Random, layout: &Layout, body: &mut [u8]) {
    set(body, Field(random.pick(layout.markers), 1), 0);
}

/// No stuffing bit, a 1 bit after it, or a nonzero byte after it.
pub(super) fn spoil_stuffing(random: &mut Random, layout: &Layout, body: &mut Vec<u8>) {
    match random.below(3) {
        0 => set(body, Field(layout.bits, 1), 0),
        1 => set(body, Field(layout.bits + random.between(1, 7) as usize, 1), 1),
        _ => body.push(random.byte().max(2)),
    }
}

/// Cuts the body to any shorter length, often one byte less than its layout asks for.
pub(super) fn shorten(random: &mut Random, layout: &Layout, body: &mut Vec<u8>) {
    let enough = layout.bits / 8;
    let length = if random.once_in(2) { enough } else { random.index(enough + 1) };
    body.truncate(length);
}

/// One damage of a body with a layout.
pub(super) fn spoil(random: &mut Random, layout: &Layout, body: &mut Vec<u8>) {
    match random.below(5) {
        0 => spoil_value(random, layout, body),
        1 => clear_marker(random, layout, body),
        2 => spoil_stuffing(random, layout, body),
        3 => shorten(random, layout, body),
        _ => {
            let place = random.index(8 * body.len());
            set(body, Field(place, 1), random.below(2));
        }
    }
}

/// A body and its layout, where it has one when read in a group's head.
pub(super) fn extension_with_layout(random: &mut Random) -> (Vec<u8>, Option<&'static Layout>) {
    match random.below(4) {
        0 => (good_display(random, false), Some(&DISPLAY)),
        1 => (good_display(random, true), Some(&COLOUR_DISPLAY)),
        2 => (good_copyright(random), Some(&COPYRIGHT)),
        _ => (opaque(random, &[0, 1, 3, 5, 6, 7, 8, 9, 10, 11, 12, 13, 14, 15]), None),
    }
}

/// A sequence header body, good about half the time.
pub fn header_body(random: &mut Random) -> Vec<u8> {
    let scan = Scan::any(random);
    let mut body = good_header(random, scan);
    if random.once_in(2) {
        spoil(random, &HEADER, &mut body);
    }
    body
}

/// An extension body, good in a group's head about half the time.
pub fn extension_body(random: &mut Random) -> Vec<u8> {
    let (mut body, layout) = extension_with_layout(random);
    let damage = random.once_in(2);
    match layout {
        Some(layout) if damage => spoil(random, layout, &mut body),
        None if damage => body.truncate(random.index(3)),
        _ => (),
    }
    body
}
