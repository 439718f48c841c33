//! Recordings to be cut at every place (document 02, E12): full of what start codes are nearly made of, and with zeros before
//! start codes.

use super::bodies::without_start_code;
use super::recording::{write, Piece};

/// What bodies are full of.
const FILLERS: [&[u8]; 5] = [&[0], &[0, 1], &[0, 0, 2], &[0, 0, 3], &[0xFF]];
/// How often.
const TIMES: usize = 6;
const ENDINGS: [&[u8]; 3] = [&[0xB1], &[0xB7], &[0xB1, 0xB7]];
/// 1920 by 1080.
const HEADER: [u8; 15] = [
    0x48, 0x40, 0x0F, 0x00, 0x21, 0xC2, 0x4C, 0xC4, 0xE2, 0x08, 0x00, 0x20, 0x02, 0x00, 0x80,
];

fn unit(code: u8, body: Vec<u8>) -> Piece {
    Piece::new(code, without_start_code(code, body), None, 0)
}

/// A group with units of every kind that it can have, and so many zeros after those that may have them.
fn group(filler: &[u8], zeros: usize) -> Vec<Piece> {
    let full = filler.repeat(TIMES);
    let padded = |body: &[u8]| [body, &vec![0; zeros]].concat();
    let opaque = || padded(&[&full[..], &[0x80]].concat());
    vec![
        unit(0xB0, padded(&HEADER)),
        unit(0xB2, full.clone()),
        unit(0xB5, [&[0x10], &full[..]].concat()),
        unit(0xB3, opaque()),
        unit(0xB2, full.clone()),
        unit(0x00, opaque()),
        unit(0x05, opaque()),
        unit(0xB6, opaque()),
        unit(0x02, opaque()),
    ]
}

/// Good recordings of one to `groups` groups, with each ending and each filling.
pub fn recordings_to_cut(groups: usize) -> impl Iterator<Item = Vec<u8>> {
    let kinds = ENDINGS
        .iter()
        .flat_map(|ending| FILLERS.iter().map(move |filler| (ending, filler)));
    kinds.flat_map(move |(ending, filler)| {
        (1..=groups).map(move |count| {
            // Another number of zeros in each group, none among them.
            let mut pieces: Vec<Piece> = (0..count).flat_map(|i| group(filler, (i + count) % 4)).collect();
            pieces.extend(ending.iter().map(|&code| unit(code, Vec::new())));
            write(&pieces)
        })
    })
}
