//! Bins that are not the predicted one near the end of a payload: every count of bits left and wanted is met at every place of a
//! byte, and slips of a reader that takes many bits at once have to be found in every question.

use std::cell::{Cell, RefCell};
use std::collections::BTreeSet;
use std::ops::RangeInclusive;

use avsplus_sys::{Context, State, AVSPLUS_DONE, AVSPLUS_PAYLOAD_OUT};
use compare::{run, Decoder, Decoders, Plan, DECODERS, LIBRARY, REFERENCE};
use independent::generate::{self, LEFT_TO_BINS, WANTED_BY_BINS};

/// The questions that are asked of bins, in the report's order, each with the qs that are asked for near the end.
const BINS: [(&str, &[u32]); 4] = [
    (DECODE, &[LEAST_Q, GREATEST_Q]),
    (PAIR, &[LEAST_Q, GREATEST_Q]),
    (BYPASS, &[GREATEST_Q]),
    (STUFFING, &[LEAST_Q]),
];
const DECODE: &str = "decode";
const PAIR: &str = "decode pair";
const BYPASS: &str = "bypass";
const STUFFING: &str = "stuffing";

/// The parts of the range that the greatest and the least lg give to the bin that is not the predicted one.
const GREATEST_Q: u32 = 255;
const LEAST_Q: u32 = 1;
/// Bits that a value of 0 wants where a 1 comes next; a value that took one bit more is at least 1 and wants no more either.
const WANTED_BY_ZERO: usize = generate::WANTED_BY_ZERO as usize;
/// Ones that follow the bytes for a reader that goes past the end; more than any bin near the end wants.
const BEYOND: [u8; 8] = [0xFF; 8];

/// How a bin is missed: with the range as it is, with 256 borrowed, or with it borrowed past valueS, which takes one bit more.
#[derive(Clone, Copy, Debug, PartialEq, Eq, PartialOrd, Ord)]
enum Range {
    Own,
    Borrowed,
    PastValue,
}

impl Range {
    fn of(state: State, q: u32) -> Range {
        match state.rt < q {
            false => Range::Own,
            true if state.rs < state.vs => Range::Borrowed,
            true => Range::PastValue,
        }
    }
}

/// What sets the end.
#[derive(Clone, Copy, Debug, PartialEq, Eq, PartialOrd, Ord)]
enum End {
    BitCount,
    Bytes,
}

/// A bin that was asked for and missed.
#[derive(Clone, Copy, Debug, PartialEq, Eq, PartialOrd, Ord)]
struct Miss {
    question: &'static str,
    q: u32,
    range: Range,
    end: End,
    left: usize,
    /// The place in its byte.
    place: usize,
    wanted: usize,
    done: bool,
}

/// What a bin is asked with.
#[derive(Clone, Copy)]
struct Asked<'a> {
    bytes: &'a [u8],
    bits: usize,
    state: State,
}

impl Asked<'_> {
    fn held(&self) -> usize {
        8 * self.bytes.len()
    }

    /// None where the place is past the end.
    fn left(&self) -> Option<usize> {
        self.bits.min(self.held()).checked_sub(self.state.place)
    }
}

thread_local! {
    /// All that were asked for near the end in the run under way.
    static MET: RefCell<BTreeSet<Miss>> = RefCell::default();
    /// The slip of the run under way.
    static SLIP: Cell<Slip> = const { Cell::new(Slip::Nothing) };
}

/// Asks the independent decoder and notes a miss. How many bits a bin wants that the payload is out for, the same decoder says
/// of a payload that has those past the end too.
fn noted<T>(
    (question, q): (&'static str, u32),
    asked: Asked,
    call: impl Fn(&[u8], usize) -> T,
    read: impl Fn(&T) -> (u32, State),
) -> T {
    let Asked { bytes, bits, state } = asked;
    let answer = call(bytes, bits);
    let left = match asked.left() {
        Some(left) if LEFT_TO_BINS.contains(&(left as u64)) => left,
        _ => return answer,
    };
    let (status, after) = match read(&answer) {
        (AVSPLUS_PAYLOAD_OUT, _) => (AVSPLUS_PAYLOAD_OUT, read(&call(&[bytes, &BEYOND].concat(), usize::MAX)).1),
        answered => answered,
    };
    let miss = Miss {
        question,
        q,
        range: Range::of(state, q),
        end: if bits < asked.held() { End::BitCount } else { End::Bytes },
        left,
        place: state.place % 8,
        wanted: after.place - state.place,
        done: status == AVSPLUS_DONE,
    };
    // A bin that is the predicted one wants none, nor does one that is refused for its state.
    if miss.wanted > 0 {
        MET.with(|met| met.borrow_mut().insert(miss));
    }
    answer
}

/// The q of two contexts.
fn joint_q(first: Context, second: Context) -> u32 {
    let lg = match first.mps == second.mps {
        true => first.lg.saturating_add(second.lg) / 2,
        false => 1023_u32.saturating_sub(first.lg.abs_diff(second.lg) / 2),
    };
    lg / 4
}

/// The independent decoder, which notes what bins it is asked for.
const NOTING: Decoder = Decoder {
    decode: |bytes, bits, state, context| {
        let call = |bytes: &[u8], bits| (REFERENCE.decode)(bytes, bits, state, context);
        let q = context.lg / 4;
        noted((DECODE, q), Asked { bytes, bits, state }, call, |bin| (bin.status, bin.state))
    },
    decode_pair: |bytes, bits, state, first, second| {
        let call = |bytes: &[u8], bits| (REFERENCE.decode_pair)(bytes, bits, state, first, second);
        let q = joint_q(first, second);
        noted((PAIR, q), Asked { bytes, bits, state }, call, |bin| (bin.status, bin.state))
    },
    bypass: |bytes, bits, state| {
        let call = |bytes: &[u8], bits| (REFERENCE.bypass)(bytes, bits, state);
        let of = (BYPASS, GREATEST_Q);
        noted(of, Asked { bytes, bits, state }, call, |bin| (bin.status, bin.state))
    },
    stuffing: |bytes, bits, state| {
        let call = |bytes: &[u8], bits| (REFERENCE.stuffing)(bytes, bits, state);
        let of = (STUFFING, LEAST_Q);
        noted(of, Asked { bytes, bits, state }, call, |bin| (bin.status, bin.state))
    },
    ..REFERENCE
};

/// How many bits a bin can want with so many left.
fn wanted(q: u32, range: Range, end: End, left: usize) -> RangeInclusive<usize> {
    // The least q is doubled eight times.
    let least = match (q, range) {
        (GREATEST_Q, _) => 1,
        (_, Range::Own) => 8,
        _ => 9,
    };
    // Past the end of the bytes are ones, so that no more zeros come than are left.
    let longest = match end {
        End::BitCount => *WANTED_BY_BINS.end() as usize,
        End::Bytes => (left + WANTED_BY_ZERO).min(*WANTED_BY_BINS.end() as usize),
    };
    let most = match range {
        Range::PastValue if (q, end, left) == (GREATEST_Q, End::Bytes, 0) => WANTED_BY_ZERO - 1,
        Range::PastValue => WANTED_BY_ZERO,
        _ => longest,
    };
    least..=most
}

/// Every miss with so many bits left that can be, of one question and q. Bytes end at the end of a byte, so that the place in
/// its byte is one for each count of bits left.
fn misses(question: &'static str, q: u32, left: usize) -> Vec<Miss> {
    let mut all = Vec::new();
    for range in [Range::Own, Range::Borrowed, Range::PastValue] {
        let by_count = (0..8).map(|place| (End::BitCount, place));
        for (end, place) in by_count.chain([(End::Bytes, (8 - left % 8) % 8)]) {
            all.extend(wanted(q, range, end, left).map(|wanted| Miss {
                question,
                q,
                range,
                end,
                left,
                place,
                wanted,
                done: wanted <= left,
            }));
        }
    }
    all
}

#[test]
fn all_counts_left_and_wanted_are_met() {
    let itself = Decoders {
        reference: &NOTING,
        library: &REFERENCE,
        wrappers: [&REFERENCE; 2],
    };
    // All that does not depend on the seed.
    let plan = Plan {
        seed: 1,
        count: 0,
        small: false,
    };
    assert_eq!(run(&plan, itself).differences, 0);
    let met = MET.with(|met| met.take());
    for (question, qs) in BINS {
        for (&q, left) in qs.iter().flat_map(|q| LEFT_TO_BINS.map(move |left| (q, left as usize))) {
            let expected = misses(question, q, left);
            let never: Vec<_> = expected.into_iter().filter(|miss| !met.contains(miss)).collect();
            assert!(never.is_empty(), "{} never met, first {:?}", never.len(), never[0]);
        }
    }
}

/// Bits that a quick reader takes at once.
const AT_ONCE: usize = 32;

/// What is wrong with a reader that takes bits at once where enough are left.
#[derive(Clone, Copy, Debug)]
enum Slip {
    Nothing,
    /// With fewer left by less than a byte it takes them too, and those past the bit count as if they were there.
    PastTheCount,
    /// The place after is one too great where exactly so many are left.
    OneOffAtLast,
    /// And where so many or more are.
    OneOff,
    /// Of the bits after the four bytes that the place is in, none is seen.
    FourBytes,
    /// The payload is out after so many bits.
    OutAfterAll,
}

const SLIPS: [Slip; 5] = [
    Slip::PastTheCount,
    Slip::OneOffAtLast,
    Slip::OneOff,
    Slip::FourBytes,
    Slip::OutAfterAll,
];

/// The answer of a call with that slip.
fn slipped<T>(asked: Asked, call: impl Fn(&[u8], usize) -> T, after: impl Fn(&mut T) -> &mut State) -> T {
    let Asked { bytes, bits, state } = asked;
    let one_off = || {
        let mut answer = call(bytes, bits);
        let place = &mut after(&mut answer).place;
        *place += usize::from(*place > state.place);
        answer
    };
    match (SLIP.with(|slip| slip.get()), asked.left()) {
        (Slip::PastTheCount, Some(left)) if (AT_ONCE - 8..AT_ONCE).contains(&left) => call(bytes, usize::MAX),
        (Slip::OneOffAtLast, Some(AT_ONCE)) => one_off(),
        (Slip::OneOff, Some(left)) if left >= AT_ONCE => one_off(),
        (Slip::FourBytes, Some(left)) if left >= AT_ONCE => {
            let mut seen = bytes.to_vec();
            seen[state.place / 8 + 4..].fill(0);
            call(&seen, bits)
        }
        (Slip::OutAfterAll, Some(left)) if left >= AT_ONCE => call(bytes, state.place + AT_ONCE),
        _ => call(bytes, bits),
    }
}

/// The library with the slip made in all bins.
const SLIPPING: Decoder = Decoder {
    decode: |bytes, bits, state, context| {
        let call = |bytes: &[u8], bits| (LIBRARY.decode)(bytes, bits, state, context);
        slipped(Asked { bytes, bits, state }, call, |bin| &mut bin.state)
    },
    decode_pair: |bytes, bits, state, first, second| {
        let call = |bytes: &[u8], bits| (LIBRARY.decode_pair)(bytes, bits, state, first, second);
        slipped(Asked { bytes, bits, state }, call, |bin| &mut bin.state)
    },
    bypass: |bytes, bits, state| {
        let call = |bytes: &[u8], bits| (LIBRARY.bypass)(bytes, bits, state);
        slipped(Asked { bytes, bits, state }, call, |bin| &mut bin.state)
    },
    stuffing: |bytes, bits, state| {
        let call = |bytes: &[u8], bits| (LIBRARY.stuffing)(bytes, bits, state);
        slipped(Asked { bytes, bits, state }, call, |bin| &mut bin.state)
    },
    ..LIBRARY
};

/// The questions in which the slip is found, by the short lists alone.
fn found(slip: Slip) -> Vec<&'static str> {
    let plan = Plan {
        seed: 1,
        count: 0,
        small: true,
    };
    SLIP.with(|current| current.set(slip));
    run(&plan, DECODERS.with_library(&SLIPPING)).differing_questions()
}

#[test]
fn every_slip_is_found_in_each_question() {
    assert!(found(Slip::Nothing).is_empty());
    for slip in SLIPS {
        assert_eq!(found(slip), BINS.map(|(question, _)| question), "{:?}", slip);
    }
}
