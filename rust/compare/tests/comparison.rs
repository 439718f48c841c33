//! The comparison with few inputs, and the comparison itself: an answer altered on purpose has to be found.

use avsplus_sys::{Answer, Bin, Context, Golomb, PairBin, Part, SignedNumber, Started, State};
use compare::{run, Decoder, Decoders, Plan, Report, DECODERS, LIBRARY, REFERENCE};
use independent::generate::BITS;
use independent::NAMES;

fn small(decoders: Decoders<'_>, seed: u64) -> Report {
    let plan = Plan {
        seed,
        count: 1500,
        small: true,
    };
    run(&plan, decoders)
}

#[test]
fn library_and_independent_decoder_agree() {
    for seed in 100..103 {
        let report = small(DECODERS, seed);
        assert_eq!(report.differences, 0, "{}", report);
        assert!(report.inputs > 2000, "{}", report.inputs);
    }
}

/// The independent decoder in everyone's place.
const ITSELF: Decoders = Decoders {
    reference: &REFERENCE,
    library: &REFERENCE,
    wrappers: [&REFERENCE; 2],
};

#[test]
fn a_decoder_agrees_with_itself_and_all_answers_are_met() {
    let report = small(ITSELF, 1);
    assert_eq!(report.differences, 0, "{}", report);
    let missed: Vec<_> = NAMES.iter().filter(|(status, _)| report.times(*status) == 0).collect();
    assert!(missed.is_empty(), "{:?}\n{}", missed, report);
    assert_eq!(report.counts("group"), [14, 19, 22]);
    assert_eq!(report.counts("extension"), [1, 5, 6, 9]);
}

/// Every status with every bit that it can have, by each question that can have it, in the first group and in later ones.
#[test]
fn all_bits_are_met() {
    let report = small(ITSELF, 1);
    for question in ["check", "file", "group"] {
        for later in [false, true] {
            assert_eq!(report.bits(question, later), bits_of(question), "{}", question);
        }
    }
    for question in ["sequence header", "extension"] {
        assert_eq!(report.bits(question, false), bits_of(question), "{}", question);
    }
}

/// Statuses with their bits that a question can be answered with.
fn bits_of(question: &str) -> Vec<(u32, usize)> {
    let in_header = |&(status, bit): &(u32, u64)| matches!((status, bit), (7, 76 | 90) | (20..=25, _));
    let in_slice = |&(status, _): &(u32, u64)| status == 31 || status == 32;
    let asked = BITS.iter().filter(|place| match question {
        "sequence header" => in_header(place),
        "extension" => !in_header(place) && !in_slice(place),
        _ => true,
    });
    asked.map(|&(status, bit)| (status, bit as usize)).collect()
}

/// The first word of the last row is another.
fn last_row(stream: &[u8], rows: &mut [u32]) -> Answer {
    let answer = (LIBRARY.file)(stream, rows);
    if answer.count > 0 {
        rows[3 * answer.count - 3] ^= 1;
    }
    answer
}

/// The word after the last row is written to.
fn word_after_rows(stream: &[u8], rows: &mut [u32]) -> Answer {
    let answer = (LIBRARY.file)(stream, rows);
    match rows.get_mut(3 * answer.count) {
        Some(word) if answer.status == 0 => *word = 0,
        _ => (),
    }
    answer
}

/// Rows are written to before a refusal.
fn refusal_writes(stream: &[u8], rows: &mut [u32]) -> Answer {
    let answer = (LIBRARY.file)(stream, rows);
    match rows.last_mut() {
        Some(word) if answer.status == 11 => *word = 0,
        _ => (),
    }
    answer
}

/// One refusal has another's number.
fn other_refusal(stream: &[u8], rows: &mut [u32]) -> Answer {
    let answer = (LIBRARY.file)(stream, rows);
    let status = if answer.status == 10 { 8 } else { answer.status };
    Answer { status, ..answer }
}

/// UNENDED one byte too early.
fn other_offset(stream: &[u8], rows: &mut [u32]) -> Answer {
    let answer = (LIBRARY.file)(stream, rows);
    let offset = answer.offset - usize::from(answer.status == 11);
    Answer { offset, ..answer }
}

/// The recording with a progressive of our own in each header, by that of the first and its own.
fn with_progressive(stream: &[u8], of: impl Fn(u8, u8) -> u8) -> Vec<u8> {
    let is_header = |unit: &[u8]| unit.starts_with(&[0, 0, 1, 0xB0]) && !unit[1..].windows(3).any(|three| three == [0, 0, 1]);
    let headers = stream.windows(19).enumerate().filter(|(_, unit)| is_header(unit));
    let places: Vec<usize> = headers.map(|(i, _)| i + 6).collect();
    let mut bytes = stream.to_vec();
    for &place in &places {
        let (first, own) = (stream[places[0]] & 0x80, stream[place] & 0x80);
        bytes[place] = stream[place] & 0x7F | of(first, own);
    }
    bytes
}

/// Interlaced recordings have the rows of progressive ones.
fn rows_of_progressive(stream: &[u8], rows: &mut [u32]) -> Answer {
    (LIBRARY.file)(&with_progressive(stream, |_, _| 0x80), rows)
}

/// Either has the rows of the other.
fn rows_swapped(stream: &[u8], rows: &mut [u32]) -> Answer {
    (LIBRARY.file)(&with_progressive(stream, |_, own| 0x80 - own), rows)
}

/// The first group's progressive holds for all groups.
fn rows_by_first_group(stream: &[u8], rows: &mut [u32]) -> Answer {
    (LIBRARY.file)(&with_progressive(stream, |first, _| first), rows)
}

/// The bit of a refusal in a later group than the first is another.
fn bit_of_later_groups(stream: &[u8], rows: &mut [u32]) -> Answer {
    let answer = (LIBRARY.file)(stream, rows);
    let units = stream.windows(4).take(answer.offset + 1);
    let later = units.filter(|unit| *unit == [0, 0, 1, 0xB0]).count() > 1;
    let bit = if later { answer.bit ^ 1 } else { answer.bit };
    Answer { bit, ..answer }
}

/// An answer that is no refusal, or a refusal without a bit, has one.
fn with_a_bit(answer: Answer) -> Answer {
    Answer { bit: 0, ..answer }
}

/// The number of rows of a header becomes another, by progressive and vertical size.
fn with_rows(body: &[u8], numbers: &mut [u64], of: impl Fn(u64, u64) -> u64) -> Answer {
    let answer = (LIBRARY.sequence_header)(body, numbers);
    if answer.count > 0 {
        numbers[13] = of(numbers[2], numbers[4]);
    }
    answer
}

/// That of a progressive recording.
fn number_as_progressive(body: &[u8], numbers: &mut [u64]) -> Answer {
    with_rows(body, numbers, |_, lines| (lines + 15) / 16)
}

/// That of one field where it is interlaced.
fn number_of_one_field(body: &[u8], numbers: &mut [u64]) -> Answer {
    with_rows(body, numbers, |progressive, lines| match progressive {
        0 => (lines + 31) / 32,
        _ => (lines + 15) / 16,
    })
}

/// A body that ends exactly at the stream's end is no row.
fn row_before_end(stream: &[u8], rows: &[u32], i: usize) -> bool {
    let Part { offset, length } = (LIBRARY.row_body)(stream, rows, i);
    (LIBRARY.row_exists)(stream, rows, i) && offset + length < stream.len()
}

/// A body begins one byte too early.
fn body_with_code(stream: &[u8], rows: &[u32], i: usize) -> Part {
    let part = (LIBRARY.row_body)(stream, rows, i);
    let offset = part.offset.saturating_sub(1);
    Part { offset, ..part }
}

/// A colour that is not given becomes given with zeros.
fn colour_of_zeros(stream: &[u8], g: usize, numbers: &mut [u64]) -> Answer {
    let answer = (LIBRARY.group)(stream, g, numbers);
    if answer.count == 19 && numbers.len() >= 22 {
        numbers[19..22].fill(0);
        return Answer { count: 22, ..answer };
    }
    answer
}

/// FULL for a group where there is no room for what it has not.
fn group_wants_room_for_all(stream: &[u8], g: usize, numbers: &mut [u64]) -> Answer {
    let mut all = [0; 22];
    let answer = (LIBRARY.group)(stream, g, &mut all);
    if answer.status == 0 && numbers.len() < 22 {
        return (LIBRARY.group)(stream, g, &mut []);
    }
    (LIBRARY.group)(stream, g, numbers)
}

/// As many numbers as there is room for, where there is too little.
fn extension_writes_some(body: &[u8], in_head: bool, numbers: &mut [u64]) -> Answer {
    let mut all = [0; 9];
    let given = (LIBRARY.extension)(body, in_head, &mut all).count;
    if numbers.len() < given {
        numbers.copy_from_slice(&all[..numbers.len()]);
    }
    (LIBRARY.extension)(body, in_head, numbers)
}

/// What is not given is written as zeros, though it is not counted.
fn extension_fills(body: &[u8], in_head: bool, numbers: &mut [u64]) -> Answer {
    let answer = (LIBRARY.extension)(body, in_head, numbers);
    if answer.status == 0 && numbers.len() >= 9 {
        numbers[answer.count..9].fill(0);
    }
    answer
}

/// A stream is checked as if its units were rows to be written.
fn check_that_is_full(stream: &[u8]) -> Answer {
    (LIBRARY.file)(stream, &mut [0; 60])
}

/// The bits after the last are ones.
fn ones_after_last_bit(payload: &[u8], output: &mut [u8]) -> Answer {
    let answer = (LIBRARY.remove_escapes)(payload, output);
    let used = answer.count % 8;
    if used > 0 {
        output[answer.count / 8] |= 0xFF >> used;
    }
    answer
}

/// A refusal carries a number.
fn number_of_refusal(bytes: &[u8], bits: usize, place: usize) -> Golomb {
    let golomb = (LIBRARY.unsigned_golomb)(bytes, bits, place);
    let number = if golomb.status == 0 { golomb.number } else { 0 };
    Golomb { number, ..golomb }
}

/// The sign is lost.
fn no_sign(bytes: &[u8], bits: usize, place: usize) -> SignedNumber {
    let signed = (LIBRARY.signed_golomb)(bytes, bits, place);
    let number = signed.number.wrapping_abs();
    SignedNumber { number, ..signed }
}

/// A refused start clears the state.
fn start_clears(bytes: &[u8], bits: usize, state: State) -> Started {
    let started = (LIBRARY.start)(bytes, bits, state);
    let place = if started.status == 0 { started.state.place } else { 0 };
    let state = State { place, ..started.state };
    Started { state, ..started }
}

/// The context learns nothing.
fn same_context(bytes: &[u8], bits: usize, state: State, context: Context) -> Bin {
    let bin = (LIBRARY.decode)(bytes, bits, state, context);
    Bin { context, ..bin }
}

/// The lg after one lg is one less, where the bin was the mps.
fn one_step_off(bytes: &[u8], bits: usize, state: State, context: Context) -> Bin {
    let mut bin = (LIBRARY.decode)(bytes, bits, state, context);
    if context.lg == 553 && bin.bin == context.mps {
        bin.context.lg -= 1;
    }
    bin
}

/// The contexts change places.
fn swapped(bytes: &[u8], bits: usize, state: State, first: Context, second: Context) -> PairBin {
    let bin = (LIBRARY.decode_pair)(bytes, bits, state, first, second);
    let (first, second) = (bin.second, bin.first);
    PairBin { first, second, ..bin }
}

/// The last number handed over is another.
fn last_number(answer: Answer, numbers: &mut [u64]) -> Answer {
    if answer.count > 0 {
        numbers[answer.count - 1] ^= 1;
    }
    answer
}

/// A slip by its name: what it changes in a decoder.
type Slip = (&'static str, fn(&mut Decoder));

/// At least one for every question; those of numbers and bits are in tests/bits.rs, those of missing bits in tests/missing.rs.
const SLIPS: [Slip; 42] = [
    ("check that is full", |d| d.check = check_that_is_full),
    ("last row", |d| d.file = last_row),
    ("word after the rows", |d| d.file = word_after_rows),
    ("refusal that writes", |d| d.file = refusal_writes),
    ("other refusal", |d| d.file = other_refusal),
    ("other offset", |d| d.file = other_offset),
    ("interlaced rows as progressive", |d| d.file = rows_of_progressive),
    ("rows swapped", |d| d.file = rows_swapped),
    ("rows by the first group", |d| d.file = rows_by_first_group),
    ("bit of a later group", |d| d.file = bit_of_later_groups),
    ("bit of a frame rate", |d| {
        d.frame_rate = |c, n| with_a_bit((LIBRARY.frame_rate)(c, n))
    }),
    ("bit of a display ratio", |d| {
        d.display_ratio = |a, n| with_a_bit((LIBRARY.display_ratio)(a, n))
    }),
    ("bit of escape removal", |d| {
        d.remove_escapes = |p, o| with_a_bit((LIBRARY.remove_escapes)(p, o))
    }),
    ("number of rows as progressive", |d| d.sequence_header = number_as_progressive),
    ("number of rows of one field", |d| d.sequence_header = number_of_one_field),
    ("row before the end", |d| d.row_exists = row_before_end),
    ("body with its code", |d| d.row_body = body_with_code),
    ("group", |d| d.group = |s, g, n| last_number((LIBRARY.group)(s, g, n), n)),
    ("colour of zeros", |d| d.group = colour_of_zeros),
    ("room for what a group has not", |d| d.group = group_wants_room_for_all),
    ("header", |d| {
        d.sequence_header = |b, n| last_number((LIBRARY.sequence_header)(b, n), n)
    }),
    ("extension", |d| {
        d.extension = |b, h, n| last_number((LIBRARY.extension)(b, h, n), n)
    }),
    ("display after a picture", |d| {
        d.extension = |b, _, n| (LIBRARY.extension)(b, true, n)
    }),
    ("some of an extension", |d| d.extension = extension_writes_some),
    ("zeros for what an extension has not", |d| d.extension = extension_fills),
    ("frame rate", |d| d.frame_rate = |c, n| (LIBRARY.frame_rate)(c.min(8), n)),
    ("display ratio", |d| {
        d.display_ratio = |a, n| (LIBRARY.display_ratio)(a & 0xFF, n)
    }),
    ("ones after the last bit", |d| d.remove_escapes = ones_after_last_bit),
    ("number of a refusal", |d| d.unsigned_golomb = number_of_refusal),
    ("no sign", |d| d.signed_golomb = no_sign),
    ("stale context", |d| {
        d.fresh_context = || Context {
            lg: 1022,
            ..(LIBRARY.fresh_context)()
        }
    }),
    ("start that clears", |d| d.start = start_clears),
    ("same context", |d| d.decode = same_context),
    ("one context step", |d| d.decode = one_step_off),
    ("swapped contexts", |d| d.decode_pair = swapped),
    ("stuffing for bypass", |d| d.bypass = d.stuffing),
    ("bypass for stuffing", |d| d.stuffing = d.bypass),
    ("last entry", |d| {
        d.next_lg = |w, lg| (LIBRARY.next_lg)(w, if lg == 1023 { 1022 } else { lg })
    }),
    ("entry past a table", |d| {
        d.next_lg = |w, lg| (LIBRARY.next_lg)(w, lg.min(1023))
    }),
    ("entry of another rate", |d| {
        d.next_lg = |w, lg| (LIBRARY.next_lg)(if w == 4 { 5 } else { w }, lg)
    }),
    ("start code from one on", |d| {
        d.next_start_code = |s, from| (LIBRARY.next_start_code)(s, from.max(1))
    }),
    ("edit code unknown", |d| {
        d.kind = |code| if code == 0xB7 { 8 } else { (LIBRARY.kind)(code) }
    }),
];

#[test]
fn every_slip_is_found() {
    for (name, slip) in SLIPS {
        let mut library = LIBRARY;
        slip(&mut library);
        let report = small(DECODERS.with_library(&library), 1);
        assert!(report.differences > 0, "{}", name);
        assert!(report.to_string().contains("difference: "), "{}", name);
    }
}

#[test]
fn a_slip_of_either_wrapper_is_found() {
    for which in 0..2 {
        let mut wrapper = *DECODERS.wrappers[which];
        wrapper.file = last_row;
        assert!(small(DECODERS.with_wrapper(which, &wrapper), 1).differences > 0);
    }
}
