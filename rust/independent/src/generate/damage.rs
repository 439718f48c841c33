//! Damaged streams: a good one with one to three damages, so that every filing refusal is met.

use super::bodies::{
    clear_marker, filler, good_copyright, good_display, good_header, opaque, shorten, spoil, spoil_stuffing, spoil_value,
    Layout, Scan, COLOUR_DISPLAY, COPYRIGHT, DISPLAY, HEADER,
};
use super::random::Random;
use super::recording::{opaque_body, pieces, user_data, write, Piece};

const UNKNOWN_CODES: [u8; 8] = [0xB4, 0xB8, 0xB9, 0xBA, 0xC0, 0xE0, 0xFE, 0xFF];
const KNOWN_CODES: [u8; 10] = [0x00, 0x01, 0xAF, 0xB0, 0xB1, 0xB2, 0xB3, 0xB5, 0xB6, 0xB7];
const ALPHABET: [u8; 18] = [
    0, 0, 0, 0, 0, 1, 1, 1, 2, 0x80, 0xB0, 0xB1, 0xB2, 0xB3, 0xB5, 0xB6, 0xB7, 0xFF,
];

/// The index of a unit for which `wanted` holds.
fn find(random: &mut Random, pieces: &[Piece], wanted: impl Fn(&Piece) -> bool) -> Option<usize> {
    let found: Vec<usize> = (0..pieces.len()).filter(|&i| wanted(&pieces[i])).collect();
    if found.is_empty() {
        None
    } else {
        Some(random.pick(&found))
    }
}

/// The same in any group, or every other time in a later one, where there is one.
fn find_in_groups(random: &mut Random, pieces: &[Piece], wanted: impl Fn(&Piece) -> bool) -> Option<usize> {
    let mut headers = (0..pieces.len()).filter(|&i| pieces[i].code == 0xB0);
    let later = if random.once_in(2) { headers.nth(1) } else { None };
    let from = later.unwrap_or(0);
    find(random, &pieces[from..], wanted).map(|i| from + i)
}

fn is_slice(piece: &Piece) -> bool {
    piece.code < 0xB0
}

/// An extension unit with one of the three layouts of extensions.
fn laid_out_extension(random: &mut Random, rows: u64) -> Piece {
    let (body, layout): (Vec<u8>, &'static Layout) = match random.below(5) {
        0 => (good_display(random, false), &DISPLAY),
        1 | 2 => (good_display(random, true), &COLOUR_DISPLAY),
        _ => (good_copyright(random), &COPYRIGHT),
    };
    Piece::new(0xB5, body, Some(layout), rows)
}

/// Any unit at all, good for some place of the grammar.
fn any_piece(random: &mut Random) -> Piece {
    let scan = Scan::any(random);
    let rows = scan.rows();
    match random.below(8) {
        0 => Piece::new(0xB0, good_header(random, scan), Some(&HEADER), rows),
        1 => Piece::new(0xB2, user_data(random), None, rows),
        2 => laid_out_extension(random, rows),
        3 => Piece::new(0xB5, opaque(random, &[0, 2, 4, 9]), None, rows),
        4 => {
            let code = random.pick(&[0xB3, 0xB6]);
            Piece::new(code, opaque_body(random, code), None, rows)
        }
        5 => Piece::new(random.pick(&[0xB1, 0xB7]), Vec::new(), None, rows),
        _ => {
            let code = random.below(0xB0) as u8;
            Piece::new(code, opaque_body(random, code), None, rows)
        }
    }
}

/// Drops, inserts, doubles or swaps units.
fn reorder(random: &mut Random, pieces: &mut Vec<Piece>) {
    let i = random.index(pieces.len());
    match random.below(4) {
        0 => {
            pieces.remove(i);
        }
        1 => pieces.insert(i, any_piece(random)),
        2 => pieces.insert(i, pieces[i].clone()),
        _ => {
            let j = random.index(pieces.len());
            pieces.swap(i, j);
        }
    }
}

fn change_code(random: &mut Random, pieces: &mut [Piece]) {
    let i = random.index(pieces.len());
    pieces[i].code = match random.below(3) {
        0 => random.byte(),
        1 => random.pick(&UNKNOWN_CODES),
        _ => random.pick(&KNOWN_CODES),
    };
}

/// Puts an extension with a layout right after a sequence header, and answers where.
fn put_extension(random: &mut Random, pieces: &mut Vec<Piece>) -> Option<usize> {
    let head = find_in_groups(random, pieces, |piece| piece.code == 0xB0)?;
    let extension = laid_out_extension(random, pieces[head].rows);
    pieces.insert(head + 1, extension);
    Some(head + 1)
}

/// Spoils a body that has a layout in the given way: one that is there, or an extension put in for it.
fn spoil_layout(random: &mut Random, pieces: &mut Vec<Piece>, way: fn(&mut Random, &Layout, &mut Vec<u8>)) {
    let found = if random.once_in(2) {
        put_extension(random, pieces)
    } else {
        find_in_groups(random, pieces, |piece| piece.layout.is_some())
    };
    if let Some(i) = found {
        let piece = &mut pieces[i];
        if let Some(layout) = piece.layout {
            way(random, layout, &mut piece.body);
        }
    }
}

/// Two display extensions in one head, the second sometimes spoilt too; other units may stand between them.
fn two_displays(random: &mut Random, pieces: &mut Vec<Piece>) {
    let head = match find(random, pieces, |piece| piece.code == 0xB0) {
        Some(head) => head,
        None => return,
    };
    let rows = pieces[head].rows;
    let between = random.once_in(3);
    let (first, second) = (random.once_in(2), random.once_in(2));
    let layout = if second { &COLOUR_DISPLAY } else { &DISPLAY };
    let mut body = good_display(random, second);
    if random.once_in(4) {
        spoil(random, layout, &mut body);
    }
    pieces.insert(head + 1, Piece::new(0xB5, body, Some(layout), rows));
    if between {
        pieces.insert(head + 1, Piece::new(0xB2, user_data(random), None, rows));
    }
    pieces.insert(head + 1, Piece::new(0xB5, good_display(random, first), None, rows));
}

/// A slice code at or over the rows, or not over the code before it.
fn slice_code(random: &mut Random, pieces: &mut [Piece]) {
    if let Some(i) = find_in_groups(random, pieces, is_slice) {
        let before = pieces[i.max(1) - 1].code;
        let rows = pieces[i].rows.min(0xAF) as u8;
        pieces[i].code = match random.below(5) {
            0 => rows,
            1 => rows.saturating_add(1).min(0xAF),
            2 => rows.saturating_sub(1),
            3 => before.min(0xAF),
            _ => before.saturating_sub(1).min(0xAF),
        };
    }
}

/// A picture or slice body of zeros only, or an empty extension.
fn empty_body(random: &mut Random, pieces: &mut [Piece]) {
    let can_be_short = |piece: &Piece| is_slice(piece) || matches!(piece.code, 0xB3 | 0xB5 | 0xB6);
    if let Some(i) = find(random, pieces, can_be_short) {
        let length = if pieces[i].code == 0xB5 { 0 } else { random.index(4) };
        pieces[i].body = vec![0; length];
    }
}

/// A body after a sequence end or an edit code.
fn ending_body(random: &mut Random, pieces: &mut [Piece]) {
    if let Some(i) = find(random, pieces, |piece| matches!(piece.code, 0xB1 | 0xB7)) {
        let length = random.between(1, 4);
        let zero = random.once_in(2);
        pieces[i].body = (0..length).map(|_| if zero { 0 } else { filler(random) }).collect();
    }
}

/// A slice 00 whose body begins with 00 01.
fn overlap(random: &mut Random, pieces: &mut [Piece]) {
    let wanted = if random.once_in(2) { is_slice } else { |_: &Piece| true };
    if let Some(i) = find(random, pieces, wanted) {
        let piece = &mut pieces[i];
        piece.code = 0;
        let tail = random.pick(&[&[0_u8, 1][..], &[0, 1, 0], &[0, 1, 0xB3, 0x80], &[0, 0, 1], &[0, 2]]);
        piece.body.splice(0..0, tail.iter().copied());
    }
}

/// Takes away the ending, or cuts between two units.
fn stop_early(random: &mut Random, pieces: &mut Vec<Piece>) {
    if random.once_in(2) {
        pieces.retain(|piece| !matches!(piece.code, 0xB1 | 0xB7));
    } else {
        let kept = random.between(1, pieces.len() as u64) as usize;
        pieces.truncate(kept);
    }
}

fn damage_units(random: &mut Random, pieces: &mut Vec<Piece>) {
    if pieces.is_empty() {
        return;
    }
    match random.below(16) {
        0 | 1 => reorder(random, pieces),
        2 => change_code(random, pieces),
        3 | 4 => spoil_layout(random, pieces, |random, layout, body| spoil_value(random, layout, body)),
        5 | 6 => spoil_layout(random, pieces, |random, layout, body| clear_marker(random, layout, body)),
        7 => spoil_layout(random, pieces, spoil_stuffing),
        8 => spoil_layout(random, pieces, shorten),
        9 | 10 => two_displays(random, pieces),
        11 => slice_code(random, pieces),
        12 => empty_body(random, pieces),
        13 => ending_body(random, pieces),
        14 => overlap(random, pieces),
        _ => stop_early(random, pieces),
    }
}

/// The offsets where 00 00 01 stands.
fn start_codes(bytes: &[u8]) -> Vec<usize> {
    (0..bytes.len()).filter(|&i| bytes[i..].starts_with(&[0, 0, 1])).collect()
}

/// Cuts the end at any byte, often inside or right after a start code.
fn cut(random: &mut Random, bytes: &mut Vec<u8>) {
    let codes = start_codes(bytes);
    let length = if random.once_in(2) || codes.is_empty() {
        random.index(bytes.len() + 1)
    } else {
        let inside = random.between(0, 4) as usize;
        random.pick(&codes) + inside
    };
    bytes.truncate(length);
}

/// Bytes or units after the ending.
fn garbage(random: &mut Random, bytes: &mut Vec<u8>) {
    match random.below(4) {
        0 => bytes.extend_from_slice(&[0, 0, 1]),
        1 => bytes.extend(write(&[any_piece(random)])),
        2 => bytes.extend_from_slice(random.pick(&[&[0_u8][..], &[0, 0], &[0, 0, 0], &[0x80], &[0, 0, 0, 1]])),
        _ => (0..random.between(1, 6)).for_each(|_| bytes.push(random.pick(&ALPHABET))),
    }
}

/// Spoils the first three bytes, or leaves fewer.
fn lose_the_start(random: &mut Random, bytes: &mut Vec<u8>) {
    match random.below(4) {
        0 => bytes.truncate(random.index(3)),
        1 => bytes.insert(0, random.pick(&ALPHABET)),
        2 => {
            bytes.drain(..bytes.len().min(random.between(1, 5) as usize));
        }
        _ => {
            let i = random.index(3);
            bytes[i] = filler(random);
        }
    }
}

/// Puts two start codes into each other, anywhere or right after another start code.
fn overlapping_codes(random: &mut Random, bytes: &mut Vec<u8>) {
    let codes = start_codes(bytes);
    let place = if random.once_in(2) || codes.is_empty() {
        random.index(bytes.len())
    } else {
        random.pick(&codes)
    };
    let inserted = random.pick(&[
        &[0_u8, 0, 1, 0, 0, 1][..],
        &[0, 0, 1],
        &[0, 0, 1, 0],
        &[0, 0, 1, 0, 0, 1, 0xB1],
    ]);
    bytes.splice(place..place, inserted.iter().copied());
}

fn damage_bytes(random: &mut Random, bytes: &mut Vec<u8>) {
    if bytes.len() < 3 {
        return;
    }
    let i = random.index(bytes.len());
    match random.below(9) {
        0 | 1 => bytes[i] ^= 1 << random.below(8),
        2 => bytes[i] = random.pick(&ALPHABET),
        3 | 4 => cut(random, bytes),
        5 | 6 => garbage(random, bytes),
        7 => overlapping_codes(random, bytes),
        _ => lose_the_start(random, bytes),
    }
}

/// Plain bytes over a small alphabet, sometimes after a good beginning.
fn small_alphabet(random: &mut Random) -> Vec<u8> {
    let mut bytes = if random.once_in(3) { Vec::new() } else { vec![0, 0, 1] };
    if random.once_in(2) {
        let scan = Scan::any(random);
        bytes = write(&[Piece::new(0xB0, good_header(random, scan), None, 0)]);
    }
    let length = random.pick(&[3, 10, 40, 200]);
    (0..random.below(length)).for_each(|_| bytes.push(random.pick(&ALPHABET)));
    bytes
}

/// A good stream with one to three damages; sometimes plain bytes over a small alphabet.
pub fn damaged(random: &mut Random) -> Vec<u8> {
    if random.once_in(25) {
        return small_alphabet(random);
    }
    let mut pieces = pieces(random);
    let damages = random.pick(&[1, 1, 1, 2, 3]);
    let of_units = (0..damages).filter(|_| !random.once_in(3)).count();
    (0..of_units).for_each(|_| damage_units(random, &mut pieces));
    let mut bytes = write(&pieces);
    (of_units..damages).for_each(|_| damage_bytes(random, &mut bytes));
    bytes
}
