//! Whole streams: filing, rows and groups.

use avsplus_sys::{AVSPLUS_DONE, AVSPLUS_GROUP_PLAIN, AVSPLUS_GROUP_WITH_COLOUR, AVSPLUS_LONGEST_STREAM, AVSPLUS_ROW_WORDS};
use independent::generate::{damaged, stream, Random};

use crate::comparison::{alone, lend, rooms, Comparison, ALL_ROOMS};
use crate::inputs::pick;
use crate::report::Question;

const LONGEST: usize = AVSPLUS_LONGEST_STREAM as usize;
/// One stream in so many is a long one made of several; prime, so that each wrapper has its turn.
const JOINED_SHARE: u64 = 199;
/// The sequence header of 1920 by 1080, up to the body of an I picture and the code of what follows it.
pub(crate) const BEGINNING: [u8; 28] = [
    0, 0, 1, 0xB0, 0x48, 0x40, 0x0F, 0x00, 0x21, 0xC2, 0x4C, 0xC4, 0xE2, 0x08, 0x00, 0x20, 0x02, 0x00, 0x80, 0, 0, 1, 0xB3,
    0x80, 0, 0, 1, 0x00,
];
pub(crate) const ENDING: [u8; 4] = [0, 0, 1, 0xB1];

/// Valid and damaged streams in turn, now and then many groups long.
pub(crate) fn generated(comparison: &mut Comparison, random: &mut Random, count: u64) {
    for i in 0..count {
        let bytes = match i % JOINED_SHARE {
            0 => joined(random),
            turn if turn % 2 == 0 => stream(random),
            _ => damaged(random),
        };
        comparison.input(bytes, |comparison, stream| questions(comparison, random, stream));
    }
}

/// The groups of several good streams as one stream; every other time with a bit changed in its later half.
fn joined(random: &mut Random) -> Vec<u8> {
    let mut bytes = Vec::new();
    for _ in 0..random.between(2, 8) {
        remove_ending(&mut bytes);
        bytes.extend(stream(random));
    }
    if random.once_in(2) {
        let half = bytes.len() / 2;
        let i = half + random.index(half);
        bytes[i] ^= 1 << random.below(8);
    }
    bytes
}

fn remove_ending(bytes: &mut Vec<u8>) {
    for code in [0xB7, 0xB1] {
        if bytes.ends_with(&[0, 0, 1, code]) {
            bytes.truncate(bytes.len() - 4);
        }
    }
}

fn questions(comparison: &mut Comparison, random: &mut Random, stream: &[u8]) {
    let rows = filing(comparison, stream);
    rows_as_filed_and_changed(comparison, random, stream, rows);
    groups(comparison, stream);
}

/// How many start codes there are: a good stream has as many units.
pub(crate) fn start_codes(stream: &[u8]) -> usize {
    stream.windows(3).filter(|three| *three == [0, 0, 1]).count()
}

pub(crate) fn file(comparison: &mut Comparison, stream: &[u8], room: usize) -> Vec<u32> {
    let with = || format!("{} words lent", room);
    let filed = comparison.ask(Question::File, &with, |decoder| {
        lend(room, |rows| (decoder.file)(stream, rows))
    });
    filed.words().to_vec()
}

/// Checks, and files with none, too few, too many and exactly enough words; answers these last, pattern and all.
fn filing(comparison: &mut Comparison, stream: &[u8]) -> Vec<u32> {
    check(comparison, stream);
    let wanted = AVSPLUS_ROW_WORDS * start_codes(stream);
    for room in [0, wanted.saturating_sub(1), wanted + AVSPLUS_ROW_WORDS] {
        file(comparison, stream, room);
    }
    file(comparison, stream, wanted)
}

fn rows_as_filed_and_changed(comparison: &mut Comparison, random: &mut Random, stream: &[u8], mut rows: Vec<u32>) {
    all_rows(comparison, stream, &rows);
    change(random, &mut rows, stream.len() as u32);
    all_rows(comparison, stream, &rows);
    rows.truncate(random.index(rows.len() + 1));
    all_rows(comparison, stream, &rows);
}

/// Asks for each row, for two past the last, and for numbers that three times over fit no word.
fn all_rows(comparison: &mut Comparison, stream: &[u8], rows: &[u32]) {
    let past = rows.len() / AVSPLUS_ROW_WORDS + 2;
    let third = usize::MAX / 3;
    for i in (0..=past).chain([third, third + 1, usize::MAX - 1, usize::MAX]) {
        let with = || format!("row {} of {:?}", i, rows);
        comparison.ask(Question::Row, &with, |decoder| {
            ((decoder.row_exists)(stream, rows, i), (decoder.row_body)(stream, rows, i))
        });
    }
}

/// Puts offsets and lengths near and past the stream's end into some rows.
fn change(random: &mut Random, rows: &mut [u32], length: u32) {
    for row in rows.chunks_exact_mut(AVSPLUS_ROW_WORDS) {
        let near = (random.below(5) as u32).wrapping_sub(2);
        let which = 1 + random.index(2);
        // Offset, four bytes and length together end at the stream's end.
        let to_the_end = length.wrapping_sub(4).wrapping_sub(row[3 - which]);
        row[which] = match random.below(8) {
            0..=2 => to_the_end.wrapping_add(near),
            3 => length.wrapping_add(near),
            4 => pick(random, &[u32::MAX, u32::MAX - 3, u32::MAX - 4, 1 << 31]),
            5 => random.word() as u32,
            _ => row[which],
        };
    }
}

/// Asks for all groups, two past the last, and one far off.
fn groups(comparison: &mut Comparison, stream: &[u8]) {
    let mut g = 0;
    while group(comparison, stream, g, &ALL_ROOMS) == AVSPLUS_DONE {
        g += 1;
    }
    for past in [g + 1, usize::MAX] {
        group(comparison, stream, past, &[0, AVSPLUS_GROUP_WITH_COLOUR]);
    }
}

pub(crate) fn group(comparison: &mut Comparison, stream: &[u8], g: usize, rooms: &[usize]) -> u32 {
    let with = || format!("group {}", g);
    comparison.numbers(Question::Group, &with, rooms, |decoder, lent| {
        (decoder.group)(stream, g, lent)
    })
}

pub(crate) fn check(comparison: &mut Comparison, stream: &[u8]) {
    comparison.ask(Question::Check, &alone, |decoder| (decoder.check)(stream));
}

/// A good stream of so many bytes: most are one slice, or user data before it.
fn long_stream(random: &mut Random, length: usize, user_data: bool) -> Vec<u8> {
    let mut bytes = BEGINNING.to_vec();
    if user_data {
        bytes[27] = 0xB2;
    }
    let mut ending = if user_data { vec![0, 0, 1, 0, 0x80] } else { vec![] };
    ending.extend(ENDING);
    let fill = random.byte().max(2);
    bytes.resize(length - ending.len(), fill);
    bytes.extend(ending);
    bytes
}

/// Streams at the limit and one byte over.
pub(crate) fn longest(comparison: &mut Comparison, random: &mut Random) {
    for user_data in [false, true] {
        for length in [LONGEST, LONGEST + 1] {
            let bytes = long_stream(random, length, user_data);
            comparison.input(bytes, |comparison, stream| {
                let rows = filing(comparison, stream);
                all_rows(comparison, stream, &rows);
                group(comparison, stream, 0, &rooms(AVSPLUS_GROUP_PLAIN));
            });
        }
    }
}

/// Streams over the limit, which are refused unread: quick enough for a slow machine.
pub(crate) fn too_long(comparison: &mut Comparison, random: &mut Random) {
    for bytes in [long_stream(random, LONGEST + 1, false), vec![0; LONGEST + 2]] {
        comparison.input(bytes, |comparison, stream| {
            check(comparison, stream);
            file(comparison, stream, 12);
            group(comparison, stream, 0, &ALL_ROOMS);
        });
    }
}
