//! Bins, one at a time, by 1 context and by 512, and those alone that were not as predicted.
use crate::inputs;
use crate::library::{self, Bin, Context, Started, State, Unread};
use crate::measure::{measure, Measured, Rival, Scale, Work, LIBRARY, SAME};
use crate::{plain_c, plain_rust};
use std::collections::BTreeSet;

const FRESH: Context = Context {
    mps: 0,
    lg: 1023,
    cycno: 0,
};

/// Asked with at a start, which answers another where the payload is good.
const NO_STATE: State = State {
    rs: 0,
    rt: 0,
    vs: 0,
    vt: 0,
    place: 0,
};

/// What stands after the bins: their number, the bins themselves mixed into one number, why there are no more, the state and
/// the contexts.
#[derive(PartialEq, Eq)]
struct Run {
    bins: usize,
    mixed: u64,
    refused: Option<Unread>,
    state: State,
    contexts: [Context; 512],
}

/// Bins of a payload, the context of each by its index, until a refusal or as many as there are indices.
type Bins = fn(&[u8], &[u16]) -> Run;

const BINS: [(&str, Bins); 4] = [
    (LIBRARY, by_library),
    (SAME, by_plain_c),
    ("plain C, by pointers", by_plain_c_in_place),
    ("plain Rust", by_plain_rust),
];

pub fn one_context(row: &'static str, scale: Scale) -> Measured {
    bins(row, scale, 1)
}

pub fn many_contexts(row: &'static str, scale: Scale) -> Measured {
    bins(row, scale, 512)
}

fn bins(row: &'static str, scale: Scale, contexts: usize) -> Measured {
    let payload = inputs::random_bytes(scale.payload);
    // Twice the bits: adapted contexts take less than a bit of the payload for some bins.
    let indices = inputs::indices(scale.payload * 16, contexts);
    let expected = by_library(&payload, &indices);
    for (name, run) in BINS {
        assert!(run(&payload, &indices) == expected, "{}: other bins", name);
    }
    check_ranges(&payload);
    check_missing();
    let rivals = BINS.iter().map(|&(name, bins)| {
        let (payload, indices) = (&payload, &indices);
        let run = Box::new(move || bins(payload, indices).mixed);
        Rival { name, run }
    });
    let work = Work {
        unit: "bin",
        amount: expected.bins,
    };
    measure(row, work, scale.repeats, rivals.collect())
}

#[inline(always)]
fn run(start: State, indices: &[u16], mut decode: impl FnMut(&mut State, &mut Context) -> Result<u32, Unread>) -> Run {
    let mut contexts = [FRESH; 512];
    let mut state = start;
    let mut bins = 0;
    let mut mixed: u64 = 0;
    let mut refused = None;
    for &index in indices {
        match decode(&mut state, &mut contexts[usize::from(index) % 512]) {
            Ok(bin) => mixed = mixed.rotate_left(1) ^ u64::from(bin),
            Err(unread) => {
                refused = Some(unread);
                break;
            }
        }
        bins += 1;
    }
    Run {
        bins,
        mixed,
        refused,
        state,
        contexts,
    }
}

#[inline(always)]
fn keep(decoded: Bin, state: &mut State, context: &mut Context) -> Result<u32, Unread> {
    let Bin { status, missing, .. } = decoded;
    if status != 0 {
        return Err(Unread { status, missing });
    }
    *state = decoded.state;
    *context = decoded.context;
    Ok(decoded.bin)
}

fn by_library(payload: &[u8], indices: &[u16]) -> Run {
    let bits = payload.len() * 8;
    let start = library::start(payload, bits, NO_STATE).state;
    run(start, indices, |s, c| keep(library::decode(payload, bits, *s, *c), s, c))
}

fn by_plain_c(payload: &[u8], indices: &[u16]) -> Run {
    let bits = payload.len() * 8;
    let start = plain_c::start(payload, bits, NO_STATE).state;
    run(start, indices, |s, c| keep(plain_c::decode(payload, bits, *s, *c), s, c))
}

fn by_plain_c_in_place(payload: &[u8], indices: &[u16]) -> Run {
    let bits = payload.len() * 8;
    let start = plain_c::start(payload, bits, NO_STATE).state;
    run(start, indices, |s, c| plain_c::decode_in_place(payload, bits, s, c))
}

fn by_plain_rust(payload: &[u8], indices: &[u16]) -> Run {
    let bits = payload.len() * 8;
    let start = plain_rust::start(payload, bits).unwrap_or(NO_STATE);
    run(start, indices, |s, c| plain_rust::decode(payload, bits, s, c))
}

/// States and contexts on and past the ends of their ranges: all rivals refuse the same of them.
fn check_ranges(payload: &[u8]) {
    let bits = payload.len() * 8;
    for k in 0..1 << 9 {
        let out = |bit: u32| k >> bit & 1;
        let state = State {
            rs: 524_288 + out(0),
            rt: 255 + out(1),
            vs: 524_288 + out(2),
            vt: 255 + out(3),
            place: bits + out(4) as usize,
        };
        let context = Context {
            mps: 1 + out(5),
            lg: if out(6) == 1 { 3 + out(7) * 1021 } else { 4 + out(7) * 1019 },
            cycno: 3 + out(8),
        };
        check_decode(payload, bits, state, context);
    }
}

/// All rivals decode this alike, or refuse it alike; answers how many bits were missing.
fn check_decode(payload: &[u8], bits: usize, state: State, context: Context) -> u32 {
    let expected = library::decode(payload, bits, state, context);
    let by_value = plain_c::decode(payload, bits, state, context);
    assert_eq!(by_value, expected, "plain C, by value");
    let (mut s, mut c) = (state, context);
    let kept = (keep(expected, &mut s, &mut c), s, c);
    let (mut s, mut c) = (state, context);
    let in_place = plain_c::decode_in_place(payload, bits, &mut s, &mut c);
    assert_eq!((in_place, s, c), kept, "plain C, by pointers");
    let (mut s, mut c) = (state, context);
    let rust = plain_rust::decode(payload, bits, &mut s, &mut c);
    assert_eq!((rust, s, c), kept, "plain Rust");
    expected.missing
}

/// The same for a start.
fn check_start(payload: &[u8], bits: usize) -> u32 {
    let expected = library::start(payload, bits, NO_STATE);
    let Started { status, missing, state } = expected;
    assert_eq!(plain_c::start(payload, bits, NO_STATE), expected, "plain C");
    let started = if status == 0 {
        Ok(state)
    } else {
        Err(Unread { status, missing })
    };
    assert_eq!(plain_rust::start(payload, bits), started, "plain Rust");
    missing
}

/// All rivals say alike how many bits are missing of payloads that end within a start or a bin, by the bit count and by the
/// bytes.
fn check_missing() {
    let (mut of_starts, mut of_bins) = (BTreeSet::new(), BTreeSet::new());
    for (payload, bits) in inputs::cut_payloads() {
        of_starts.insert(check_start(&payload, bits));
        let end = bits.min(payload.len() * 8);
        for (place, (rt, vt)) in (0..=end).flat_map(|place| [(0, 255), (255, 0), (255, 255)].map(|of_t| (place, of_t))) {
            let (rs, vs) = (3, 3);
            of_bins.insert(check_decode(&payload, bits, State { rs, rt, vs, vt, place }, FRESH));
        }
    }
    // 0 where none are.
    assert!(of_starts.into_iter().eq(0..=9), "counts of starts that were met");
    assert!(of_bins.into_iter().eq(0..=1), "counts of bins that were met");
}

// ── missed bins ──

/// What one bin is decoded from.
type Pair = (State, Context);

/// Bins of a payload, each from a pair of its own: they and the places after them mixed into one number.
type Missed = fn(&[u8], &[Pair]) -> u64;

const MISSED: [(&str, Missed); 5] = [
    (LIBRARY, missed_by_library),
    (SAME, missed_by_plain_c),
    ("plain C, by pointers", missed_by_plain_c_in_place),
    ("plain Rust", missed_by_plain_rust),
    (NEAR_THE_END, missed_near_the_end),
];

const NEAR_THE_END: &str = "library, 31 bits left";

/// So many bits are to be left for a missed bin's bits to be taken at once; with fewer the library takes them one by one.
const WIDE: usize = 32;

/// Bins that were not as predicted, each from a state of its own. Whether the library takes their bits at once shows beside
/// itself with too few bits left for it.
pub fn missed(row: &'static str, scale: Scale) -> Measured {
    let payload = inputs::random_bytes(scale.payload);
    let pairs = missed_pairs(&payload);
    check_pairs(&payload, &pairs);
    let rivals = MISSED.iter().map(|&(name, missed)| {
        let (payload, pairs) = (&payload, &pairs);
        let run = Box::new(move || missed(payload, pairs));
        Rival { name, run }
    });
    let work = Work {
        unit: "bin",
        amount: pairs.len(),
    };
    measure(row, work, scale.repeats, rivals.collect())
}

/// Where a decode by 512 contexts misses, with `WIDE` bits left, and takes fewer.
fn missed_pairs(payload: &[u8]) -> Vec<Pair> {
    let bits = payload.len() * 8;
    let start = library::start(payload, bits, NO_STATE).state;
    let mut pairs = Vec::new();
    run(start, &inputs::indices(payload.len() * 16, 512), |s, c| {
        let (state, context) = (*s, *c);
        let bin = keep(library::decode(payload, bits, state, context), s, c)?;
        if bin != context.mps && state.place + WIDE <= bits && s.place < state.place + WIDE {
            pairs.push((state, context));
        }
        Ok(bin)
    });
    pairs
}

/// All rivals decode each pair alike, and the library with few bits left as with all.
fn check_pairs(payload: &[u8], pairs: &[Pair]) {
    let bits = payload.len() * 8;
    for &(state, context) in pairs {
        check_decode(payload, bits, state, context);
        let expected = library::decode(payload, bits, state, context);
        let near = library::decode(payload, state.place + WIDE - 1, state, context);
        assert_eq!(near, expected, "{}", NEAR_THE_END);
        assert_eq!((near.status, near.bin), (0, 1 - context.mps), "a missed bin");
    }
}

#[inline(always)]
fn mix(pairs: &[Pair], decode: impl Fn(&mut State, &mut Context) -> Result<u32, Unread>) -> u64 {
    pairs.iter().fold(0, |mixed: u64, &(mut state, mut context)| {
        // A refusal is mixed in as 2, which no bin is.
        let bin = decode(&mut state, &mut context).unwrap_or(2);
        mixed.rotate_left(5) ^ (state.place as u64) << 2 ^ u64::from(bin)
    })
}

fn missed_by_library(payload: &[u8], pairs: &[Pair]) -> u64 {
    let bits = payload.len() * 8;
    mix(pairs, |s, c| keep(library::decode(payload, bits, *s, *c), s, c))
}

fn missed_near_the_end(payload: &[u8], pairs: &[Pair]) -> u64 {
    mix(pairs, |s, c| keep(library::decode(payload, s.place + WIDE - 1, *s, *c), s, c))
}

fn missed_by_plain_c(payload: &[u8], pairs: &[Pair]) -> u64 {
    let bits = payload.len() * 8;
    mix(pairs, |s, c| keep(plain_c::decode(payload, bits, *s, *c), s, c))
}

fn missed_by_plain_c_in_place(payload: &[u8], pairs: &[Pair]) -> u64 {
    let bits = payload.len() * 8;
    mix(pairs, |s, c| plain_c::decode_in_place(payload, bits, s, c))
}

fn missed_by_plain_rust(payload: &[u8], pairs: &[Pair]) -> u64 {
    let bits = payload.len() * 8;
    mix(pairs, |s, c| plain_rust::decode(payload, bits, s, c))
}
