//! The rows of filing and of escape removal. Each first checks that all rivals answer alike.
use crate::inputs::{self, Body, Random, Shape};
use crate::library::{self, Answer, NO_BIT};
use crate::measure::{measure, Measured, Rival, Scale, Work, BYTE_WISE, LIBRARY, SAME};
use crate::{plain_c, plain_rust};
use std::collections::BTreeSet;

const BIT_BY_BIT: &str = "plain C, bit by bit";
const ONE_PASS: &str = "plain C, one pass";
const RUST: &str = "plain Rust";

type File = fn(&[u8], &mut [u32]) -> Answer;
type Remove = fn(&[u8], &mut [u8]) -> Answer;

// ── filing ──

const FILE: [(&str, File); 5] = [
    (LIBRARY, library::file),
    (SAME, plain_c::file_by_three),
    (ONE_PASS, plain_c::file_one_pass),
    (BYTE_WISE, plain_c::file_bytewise),
    (RUST, plain_rust::file),
];

/// A word that no row has.
const UNTOUCHED: u32 = u32::MAX;

pub fn filing(row: &'static str, scale: Scale) -> Measured {
    file_slices(row, scale, inputs::body)
}

pub fn filing_no_00(row: &'static str, scale: Scale) -> Measured {
    file_slices(row, scale, inputs::no_zeros)
}

/// As where zero bytes fill a slice up.
pub fn filing_all_00(row: &'static str, scale: Scale) -> Measured {
    file_slices(row, scale, |_, count| inputs::filled(&[0], count))
}

pub fn filing_00_01(row: &'static str, scale: Scale) -> Measured {
    file_slices(row, scale, |_, count| inputs::filled(&[0, 1], count))
}

/// A recording of slices whose bodies are of one kind.
fn file_slices(row: &'static str, scale: Scale, body: Body) -> Measured {
    let stream = inputs::recording(&Shape {
        length: scale.stream,
        pictures: 25,
        slices: 68,
        slice: (200, 2500),
        body,
    });
    let small = inputs::recording(&Shape {
        length: 1000,
        pictures: 2,
        slices: 3,
        slice: (1, 9),
        body,
    });
    measure_filing(row, scale, &stream, &small)
}

/// Bodies are what there is to read.
pub fn heads_alone(row: &'static str, scale: Scale) -> Measured {
    measure_filing(row, scale, &inputs::heads(scale.stream / 8), &inputs::heads(1000))
}

/// Example 1 of the scope: what a call costs whatever is filed.
pub fn filing_33(row: &'static str, scale: Scale) -> Measured {
    let stream = inputs::one_slice(false, 1080, 0);
    assert_eq!(stream.len(), 33, "the example's bytes");
    measure_filing(row, scale, &stream, &stream)
}

pub fn filing_666(row: &'static str, scale: Scale) -> Measured {
    let stream: &[u8; 666] = include_bytes!("../../../samples/two-groups.avs");
    measure_filing(row, scale, stream, stream)
}

pub fn filing_16383(row: &'static str, scale: Scale) -> Measured {
    file_small_units(row, scale, 16383)
}

pub fn filing_16384(row: &'static str, scale: Scale) -> Measured {
    file_small_units(row, scale, 16384)
}

/// Units so short that there are many: from 16,384 bytes on the library's first pass keeps more of them for its second.
fn file_small_units(row: &'static str, scale: Scale, length: usize) -> Measured {
    let of_length = |length| {
        inputs::recording(&Shape {
            length,
            pictures: 25,
            slices: 68,
            slice: (16, 48),
            body: inputs::body,
        })
    };
    measure_filing(row, scale, &of_length(length), &of_length(1000))
}

/// Files a recording; a small one is spoiled to see that all rivals refuse alike.
fn measure_filing(row: &'static str, scale: Scale, stream: &[u8], small: &[u8]) -> Measured {
    let words = check_filing(stream);
    check_refusals(small);
    check_last_slices();
    check_bits();
    // A short stream again and again, so that the clock's own time is little of a run's.
    let times = (scale.stream / 32 / stream.len()).max(1);
    let rivals = FILE.iter().map(|&(name, file)| {
        let mut rows = vec![UNTOUCHED; words];
        let run = Box::new(move || (0..times).map(|_| file(stream, &mut rows).count as u64).sum());
        Rival { name, run }
    });
    let work = Work {
        unit: "byte",
        amount: stream.len() * times,
    };
    measure(row, work, scale.repeats, rivals.collect())
}

fn filed(file: File, stream: &[u8], words: usize) -> (Answer, Vec<u32>) {
    let mut rows = vec![UNTOUCHED; words];
    (file(stream, &mut rows), rows)
}

/// The library's answer, which all rivals give, and its rows; those of a refusal are not asked of the one pass.
fn check_alike(stream: &[u8], words: usize, otherwise: &str) -> Answer {
    let (expected, expected_rows) = filed(library::file, stream, words);
    for (name, file) in FILE {
        let (answer, rows) = filed(file, stream, words);
        let any_rows = name == ONE_PASS && expected.status != 0;
        assert!(
            answer == expected && (any_rows || rows == expected_rows),
            "{}: {}",
            name,
            otherwise
        );
    }
    expected
}

/// The words that the recording's rows take.
fn check_filing(stream: &[u8]) -> usize {
    let answer = check_alike(stream, stream.len(), "other rows");
    assert_eq!(answer.status, 0, "the recording is good");
    let words = answer.count * 3;
    let full = check_alike(stream, words - 1, "otherwise with a word too few");
    assert_eq!(full.status, 12, "FULL");
    words
}

/// Rivals that tested less would be no rivals: each refuses what the library refuses.
fn check_refusals(good: &[u8]) {
    let mut random = Random::new(6);
    for _ in 0..20_000 {
        let stream = inputs::spoiled(good, &mut random);
        let words = random.within(0, 300);
        check_alike(&stream, words, "otherwise on a spoiled recording");
    }
}

/// Rivals count macroblock rows as the library does, progressive and not.
fn check_last_slices() {
    for lines in [1, 16, 17, 32, 33, 496, 497, 1080, 2784, 2785, 2800, 2801] {
        for (progressive, slice) in (0..0xB0).flat_map(|slice| [(false, slice), (true, slice)]) {
            let stream = inputs::one_slice(progressive, lines, slice);
            check_alike(&stream, 12, "other macroblock rows");
        }
    }
}

/// How many bits there are that a refusal can carry, each counted once for each status.
const BITS: usize = 21;

/// Rivals refuse each field and marker with the library's status and bit: every byte of two small groups takes every value.
fn check_bits() {
    let good = inputs::all_layouts();
    let mut met = BTreeSet::new();
    for (at, value) in (0..good.len()).flat_map(|at| (0..=u8::MAX).map(move |value| (at, value))) {
        let mut stream = good.clone();
        stream[at] = value;
        let answer = check_alike(&stream, 60, "another status or bit");
        met.insert((answer.status, answer.bit));
    }
    met.retain(|(_, bit)| *bit != NO_BIT);
    assert_eq!(met.len(), BITS, "bits that were met");
}

// ── escape removal ──

const REMOVE: [(&str, Remove); 5] = [
    (LIBRARY, library::remove_escapes),
    (SAME, plain_c::remove_escapes),
    (BIT_BY_BIT, plain_c::remove_escapes_bitwise),
    (BYTE_WISE, plain_c::remove_escapes_bytewise),
    (RUST, plain_rust::remove_escapes),
];

pub fn escapes_rich(row: &'static str, scale: Scale) -> Measured {
    escapes(row, scale, &inputs::with_escapes(scale.payload, 6))
}

/// As in recordings: between escapes the output stays off the byte borders for long.
pub fn escapes_sparse(row: &'static str, scale: Scale) -> Measured {
    escapes(row, scale, &inputs::with_escapes(scale.payload, 1000))
}

pub fn escapes_random(row: &'static str, scale: Scale) -> Measured {
    escapes(row, scale, &inputs::random_bytes(scale.payload))
}

fn escapes(row: &'static str, scale: Scale, raw: &[u8]) -> Measured {
    check_escapes(raw);
    let rivals = REMOVE.iter().map(|&(name, remove)| {
        let mut output = vec![0; raw.len()];
        let run = Box::new(move || (0..scale.runs).map(|_| remove(raw, &mut output).count as u64).sum());
        Rival { name, run }
    });
    let work = Work {
        unit: "byte",
        amount: raw.len() * scale.runs,
    };
    measure(row, work, scale.repeats, rivals.collect())
}

fn check_escapes(raw: &[u8]) {
    for length in (0..64).chain([raw.len()]) {
        let raw = &raw[..length];
        let mut expected = vec![0xAA; length + 1];
        let answer = library::remove_escapes(raw, &mut expected);
        for (name, remove) in REMOVE {
            let mut output = vec![0xAA; length + 1];
            assert_eq!(remove(raw, &mut output), answer, "{}: another answer", name);
            assert!(output == expected, "{}: another output", name);
        }
    }
}
