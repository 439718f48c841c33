//! Good streams of very varied make, as units and as bytes.

use super::bodies::{
    extension_with_layout, filler, good_copyright, good_display, good_header, opaque, without_start_code, zeros, Layout, Scan,
    COPYRIGHT, HEADER,
};
use super::random::Random;

/// A unit to be written, with its layout where it has one and the macroblock rows of its group.
#[derive(Clone)]
pub(super) struct Piece {
    pub code: u8,
    pub body: Vec<u8>,
    pub layout: Option<&'static Layout>,
    pub rows: u64,
}

impl Piece {
    pub(super) fn new(code: u8, body: Vec<u8>, layout: Option<&'static Layout>, rows: u64) -> Self {
        Piece {
            code,
            body,
            layout,
            rows,
        }
    }

    fn plain(code: u8, body: Vec<u8>, rows: u64) -> Self {
        Piece::new(code, body, None, rows)
    }
}

pub(super) fn write(pieces: &[Piece]) -> Vec<u8> {
    let mut bytes = Vec::new();
    for piece in pieces {
        bytes.extend_from_slice(&[0, 0, 1, piece.code]);
        bytes.extend_from_slice(&piece.body);
    }
    bytes
}

/// Any bytes, mostly few.
fn some_bytes(random: &mut Random) -> Vec<u8> {
    let length = match random.below(60) {
        0 => random.below(1500),
        1..=5 => random.below(60),
        _ => random.below(9),
    };
    (0..length).map(|_| filler(random)).collect()
}

/// A picture or slice body: at least one nonzero byte.
pub(super) fn opaque_body(random: &mut Random, code: u8) -> Vec<u8> {
    let mut body = vec![0; random.pick(&[0, 0, 0, 0, 1, 2, 3])];
    body.extend(some_bytes(random));
    body.push(random.byte().max(2));
    body.resize(body.len() + zeros(random), 0);
    without_start_code(code, body)
}

pub(super) fn user_data(random: &mut Random) -> Vec<u8> {
    let mut body = some_bytes(random);
    body.resize(body.len() + zeros(random), 0);
    without_start_code(0xB2, body)
}

/// User data and extensions after a sequence header, with at most one display extension.
fn head_items(random: &mut Random, rows: u64) -> Vec<Piece> {
    let mut display_given = false;
    let mut pieces = Vec::new();
    for _ in 0..random.pick(&[0, 0, 1, 1, 2, 3, 6]) {
        if random.once_in(4) {
            pieces.push(Piece::plain(0xB2, user_data(random), rows));
            continue;
        }
        let (body, layout) = extension_with_layout(random);
        let display = body[0] >> 4 == 2;
        if !(display && display_given) {
            pieces.push(Piece::new(0xB5, body, layout, rows));
        }
        display_given |= display;
    }
    pieces
}

/// User data and extensions after a picture header; number 2 is opaque there.
fn picture_items(random: &mut Random, rows: u64) -> Vec<Piece> {
    let mut pieces = Vec::new();
    for _ in 0..random.pick(&[0, 0, 0, 1, 2, 4]) {
        let colour = random.once_in(2);
        pieces.push(match random.below(5) {
            0 => Piece::plain(0xB2, user_data(random), rows),
            1 => Piece::new(0xB5, good_copyright(random), Some(&COPYRIGHT), rows),
            2 => Piece::plain(0xB5, opaque(random, &[2]), rows),
            3 => Piece::plain(0xB5, good_display(random, colour), rows),
            _ => Piece::plain(0xB5, opaque(random, &[0, 1, 3, 5, 7, 11, 15]), rows),
        });
    }
    pieces
}

/// Slice codes of a picture: rising and below the rows, or anything over height 2800.
fn slice_codes(random: &mut Random, scan: Scan) -> Vec<u8> {
    if scan.vertical > 2800 {
        return (0..random.between(1, 6)).map(|_| random.below(0xB0) as u8).collect();
    }
    let rows = scan.rows();
    let step = random.pick(&[1, 1, 3, 20, 90]);
    let first_below = if random.once_in(2) { 1 } else { rows };
    let mut code = random.below(first_below);
    let mut codes = Vec::new();
    let most = if random.once_in(12) { rows } else { 5 };
    while code < rows && (codes.len() as u64) < most {
        codes.push(code as u8);
        code += random.between(1, step);
    }
    if code > rows && random.once_in(3) {
        codes.retain(|&c| u64::from(c) < rows - 1);
        codes.push((rows - 1) as u8);
    }
    codes
}

fn picture(random: &mut Random, code: u8, scan: Scan) -> Vec<Piece> {
    let rows = scan.rows();
    let mut pieces = vec![Piece::plain(code, opaque_body(random, code), rows)];
    pieces.extend(picture_items(random, rows));
    for code in slice_codes(random, scan) {
        pieces.push(Piece::plain(code, opaque_body(random, code), rows));
    }
    pieces
}

fn group(random: &mut Random) -> Vec<Piece> {
    let scan = Scan::any(random);
    let rows = scan.rows();
    let mut pieces = vec![Piece::new(0xB0, good_header(random, scan), Some(&HEADER), rows)];
    pieces.extend(head_items(random, rows));
    pieces.extend(picture(random, 0xB3, scan));
    for _ in 0..random.pick(&[0, 0, 1, 2]) {
        let code = random.pick(&[0xB3, 0xB6, 0xB6]);
        pieces.extend(picture(random, code, scan));
    }
    pieces
}

/// The units of a good stream.
pub(super) fn pieces(random: &mut Random) -> Vec<Piece> {
    let groups = if random.once_in(20) {
        random.between(4, 12)
    } else {
        random.pick(&[1, 1, 1, 2, 3])
    };
    let mut pieces: Vec<Piece> = (0..groups).flat_map(|_| group(random)).collect();
    let ending: &[u8] = random.pick(&[&[0xB1], &[0xB7], &[0xB1, 0xB7]]);
    pieces.extend(ending.iter().map(|&code| Piece::plain(code, Vec::new(), 0)));
    pieces
}

/// A good stream of one to several groups.
pub fn stream(random: &mut Random) -> Vec<u8> {
    write(&pieces(random))
}
