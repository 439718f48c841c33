//! Bins: runs from a start on, and single steps from any state.

use std::ops::Range;

use avsplus_sys::{Context, State, AVSPLUS_DONE, AVSPLUS_LONGEST_PAYLOAD};
use independent::generate::{
    bins_payload, context, payload_that_wants, state, states_that_use, states_that_want, Random, LEFT_TO_BINS, WANTED_BY_BINS,
    WANTED_BY_ZERO,
};

use crate::comparison::{alone, Comparison, Entry, Reading};
use crate::decoder::{Decoder, PlainBinOf};
use crate::inputs::bit_count;
use crate::reference::{to_context, to_state};
use crate::report::Question;

const MOST_CONTEXTS: u64 = 20;
/// Bins of a run; most payloads are out before.
const LONGEST_RUN: u64 = 400;

/// The largest valueS.
const MOST_S: u32 = 524_288;
const LONGEST: usize = AVSPLUS_LONGEST_PAYLOAD as usize;

/// A payload, and where a run stands in it.
#[derive(Clone)]
struct Run<'a> {
    bytes: &'a [u8],
    bits: usize,
    state: State,
}

impl Run<'_> {
    /// What a bin is read with.
    fn reading(&self) -> Reading {
        Reading {
            bits: self.bits,
            place: self.state.place,
        }
    }
}

/// A way to a bin.
#[derive(Clone, Copy)]
enum Way {
    One(usize),
    Pair(usize, usize),
    Bypass,
    Stuffing,
}

pub(crate) fn runs(comparison: &mut Comparison, random: &mut Random, count: u64) {
    for _ in 0..count {
        comparison.input(bins_payload(random), |comparison, bytes| run(comparison, random, bytes));
    }
}

fn run(comparison: &mut Comparison, random: &mut Random, bytes: &[u8]) {
    let bits = bit_count(random, bytes);
    let state = to_state(state(random, bits as u64));
    let mut run = Run { bytes, bits, state };
    if start(comparison, &mut run) != AVSPLUS_DONE {
        return;
    }
    let fresh = comparison.ask(Question::FreshContext, &alone, |decoder| (decoder.fresh_context)());
    let mut contexts = vec![fresh; random.between(1, MOST_CONTEXTS) as usize];
    let mix = random.below(6);
    for _ in 0..random.between(1, LONGEST_RUN) {
        let way = way(random, mix, contexts.len());
        if step(comparison, &mut run, &mut contexts, way) != AVSPLUS_DONE {
            return;
        }
    }
}

/// One way all along for the first mixes, any for the others.
fn way(random: &mut Random, mix: u64, contexts: usize) -> Way {
    let first = random.index(contexts);
    // Another context, where there is one.
    let second = (first + 1 + random.index(contexts.saturating_sub(1))) % contexts;
    let which = if mix < 4 { mix } else { random.below(4) };
    match which {
        0 => Way::One(first),
        1 => Way::Pair(first, second),
        2 => Way::Bypass,
        _ => Way::Stuffing,
    }
}

fn start(comparison: &mut Comparison, run: &mut Run) -> u32 {
    let Run { bytes, bits, state } = *run;
    let reading = Reading { bits, place: 0 };
    let with = || format!("{} bits, {:?}", bits, state);
    let started = comparison.ask_of_bits(Question::Start, reading, &with, |decoder| (decoder.start)(bytes, bits, state));
    run.state = started.state;
    started.status
}

/// Answers the status; a refusal leaves all as it was.
fn step(comparison: &mut Comparison, run: &mut Run, contexts: &mut [Context], way: Way) -> u32 {
    match way {
        Way::One(i) => one(comparison, run, &mut contexts[i]),
        Way::Pair(i, j) => {
            let mut both = [contexts[i], contexts[j]];
            let status = pair(comparison, run, &mut both);
            contexts[i] = both[0];
            contexts[j] = both[1];
            status
        }
        Way::Bypass => plain(comparison, run, Question::Bypass, |decoder| decoder.bypass),
        Way::Stuffing => plain(comparison, run, Question::Stuffing, |decoder| decoder.stuffing),
    }
}

fn one(comparison: &mut Comparison, run: &mut Run, context: &mut Context) -> u32 {
    let Run { bytes, bits, state } = *run;
    let before = *context;
    let with = || format!("{} bits, {:?}, {:?}", bits, state, before);
    let bin = comparison.ask_of_bits(Question::Decode, run.reading(), &with, |decoder| {
        (decoder.decode)(bytes, bits, state, before)
    });
    run.state = bin.state;
    *context = bin.context;
    bin.status
}

fn pair(comparison: &mut Comparison, run: &mut Run, contexts: &mut [Context; 2]) -> u32 {
    let Run { bytes, bits, state } = *run;
    let [first, second] = *contexts;
    let with = || format!("{} bits, {:?}, {:?}, {:?}", bits, state, first, second);
    let bin = comparison.ask_of_bits(Question::DecodePair, run.reading(), &with, |decoder| {
        (decoder.decode_pair)(bytes, bits, state, first, second)
    });
    run.state = bin.state;
    *contexts = [bin.first, bin.second];
    bin.status
}

fn plain(comparison: &mut Comparison, run: &mut Run, question: Question, of: fn(&Decoder) -> PlainBinOf) -> u32 {
    let Run { bytes, bits, state } = *run;
    let with = || format!("{} bits, {:?}", bits, state);
    let bin = comparison.ask_of_bits(question, run.reading(), &with, |decoder| of(decoder)(bytes, bits, state));
    run.state = bin.state;
    bin.status
}

/// Single steps from states and contexts that may be out of their ranges.
pub(crate) fn single_steps(comparison: &mut Comparison, random: &mut Random, count: u64) {
    for _ in 0..count {
        comparison.input(bins_payload(random), |comparison, bytes| {
            let bits = bit_count(random, bytes);
            let held = bits.min(8 * bytes.len());
            let state = to_state(state(random, held as u64));
            let contexts = [to_context(context(random)), to_context(context(random))];
            each_step(comparison, &Run { bytes, bits, state }, contexts);
        });
    }
}

/// One step of each kind from the same state, and a start.
fn each_step(comparison: &mut Comparison, from: &Run, contexts: [Context; 2]) {
    each_bin(comparison, from, contexts);
    start(comparison, &mut from.clone());
}

fn each_bin(comparison: &mut Comparison, from: &Run, contexts: [Context; 2]) {
    for way in [Way::One(0), Way::Pair(0, 1), Way::Bypass, Way::Stuffing] {
        step(comparison, &mut from.clone(), &mut contexts.clone(), way);
    }
}

/// Bytes of a payload that is cut, and the most bits left to a bin: more than it wants where ones are among them.
const CUT_BYTES: [u8; 3] = [0, 0x55, 0xFF];
const MOST_LEFT: usize = 20;

/// Payloads that end within the bits that a start or a bin wants, by the bit count and by the bytes. Both wrappers are asked
/// too.
pub(crate) fn cut(comparison: &mut Comparison) {
    for (length, byte) in (0..=4).flat_map(|length| CUT_BYTES.map(|byte| (length, byte))) {
        comparison.input_for_all(vec![byte; length], |comparison, bytes| {
            cut_starts(comparison, bytes);
            cut_bins(comparison, bytes);
        });
    }
}

/// By every bit count up to some more than the bytes hold.
fn cut_starts(comparison: &mut Comparison, bytes: &[u8]) {
    let state = to_state(states_that_want(0)[0]);
    for bits in (0..=8 * bytes.len() + 9).chain([usize::MAX]) {
        start(comparison, &mut Run { bytes, bits, state });
    }
}

/// With so many bits left and fewer, of a payload said to have fewer bits than the bytes hold, as many and more.
fn cut_bins(comparison: &mut Comparison, bytes: &[u8]) {
    let held = 8 * bytes.len();
    let contexts = [300, 40].map(|lg| Context {
        lg,
        ..to_context(independent::fresh())
    });
    for bits in [held.saturating_sub(3), held, held + 1, usize::MAX] {
        let end = bits.min(held);
        for place in end.saturating_sub(MOST_LEFT)..=end {
            for state in states_that_want(place as u64).into_iter().map(to_state) {
                each_bin(comparison, &Run { bytes, bits, state }, contexts);
            }
        }
    }
}

/// The places that bins near the end begin at: each of a byte, with another byte before it.
const PLACES: Range<u64> = 8..16;
/// Bytes that hold more bits than any bin near the end wants, and some bytes more.
const BYTES_HELD: u64 = 12;

/// A bin that is not the predicted one, near the end of its payload.
#[derive(Clone, Copy)]
struct Miss {
    place: u64,
    left: u64,
    wanted: u64,
}

/// Bins that are not the predicted one, with every count of bits left and wanted at every place of a byte; every so many of
/// them all. The end is set by the bit count in bytes that hold more, and in or at the end of the last byte.
pub(crate) fn near_end(comparison: &mut Comparison, step: usize) {
    let ends = PLACES.flat_map(|place| LEFT_TO_BINS.map(move |left| (place, left)));
    let all = ends.flat_map(|(place, left)| WANTED_BY_BINS.map(move |wanted| Miss { place, left, wanted }));
    for miss in all.step_by(step) {
        let end = miss.place + miss.left;
        misses(comparison, miss, BYTES_HELD);
        // Where all that is left are zeros, no more can be wanted by more of them.
        if miss.wanted <= miss.left + WANTED_BY_ZERO {
            misses(comparison, miss, (end + 7) / 8);
        }
    }
}

/// In so many bytes; where these are the end, a greater bit count says the same.
fn misses(comparison: &mut Comparison, miss: Miss, length: u64) {
    let Miss { place, left, wanted } = miss;
    let end = (place + left) as usize;
    let bytes = payload_that_wants(wanted, place, end as u64, length);
    comparison.input(bytes, |comparison, bytes| {
        let more = [end + 1, usize::MAX].into_iter().filter(|_| end == 8 * bytes.len());
        for bits in [end].into_iter().chain(more) {
            for (state, lg) in states_that_use(wanted, place) {
                let context = to_context(independent::Context {
                    lg,
                    ..independent::fresh()
                });
                let state = to_state(state);
                each_bin(comparison, &Run { bytes, bits, state }, [context; 2]);
            }
        }
    });
}

/// Every w from none to one more than the greatest, and far more; every index of a table, and some past it.
pub(crate) fn tables(comparison: &mut Comparison) {
    comparison.input_for_all(Vec::new(), |comparison, _| {
        for w in (0..=6).chain([35, u32::MAX]) {
            for lg in (0..=1100).chain([2047, 4096 + 3, 65536 + 4, u32::MAX]) {
                let with = || format!("w {}, lg {}", w, lg);
                comparison.ask(Question::NextLg, &with, |decoder| Entry((decoder.next_lg)(w, lg)));
            }
        }
    });
}

/// Every context within its ranges, at every so many lgs, before a bin that is its mps and before one that is not.
pub(crate) fn all_contexts(comparison: &mut Comparison, step: usize) {
    comparison.input_for_all(vec![0x5A; 8], |comparison, bytes| {
        for (lg, cycno) in (4..=1023).step_by(step).flat_map(|lg| (0..=3).map(move |cycno| (lg, cycno))) {
            for (mps, vs) in [(0, 9), (0, 0), (1, 9), (1, 0)] {
                // With a large valueS no bin is missed, and with 0 and the largest valueT none is hit.
                let state = State {
                    rs: 0,
                    rt: 200,
                    vs,
                    vt: 255,
                    place: 3,
                };
                let run = &mut Run { bytes, bits: 64, state };
                let mut context = Context { mps, lg, cycno };
                one(comparison, run, &mut context);
            }
        }
    });
}

/// Payloads at the limit and one byte over: zeros that keep a start doubling to their very end, and states at the limits.
pub(crate) fn longest(comparison: &mut Comparison, random: &mut Random) {
    for length in [LONGEST, LONGEST + 1] {
        for last in [0, 1, 0xFF] {
            let mut bytes = vec![0; length];
            bytes[length - 1] = last;
            comparison.input(bytes, |comparison, bytes| {
                run(comparison, random, bytes);
                let bits = 8 * bytes.len();
                let contexts = [to_context(independent::fresh()); 2];
                for state in limits(bits) {
                    each_step(comparison, &Run { bytes, bits, state }, contexts);
                }
            });
        }
    }
}

/// The largest state of a payload, and those one over in the place, in valueS and in rS.
fn limits(bits: usize) -> [State; 4] {
    let most = State {
        rs: MOST_S,
        rt: 255,
        vs: MOST_S,
        vt: 255,
        place: bits,
    };
    let past = State { place: bits + 1, ..most };
    let vs = State { vs: MOST_S + 1, ..most };
    let rs = State { rs: MOST_S + 1, ..most };
    [most, past, vs, rs]
}
