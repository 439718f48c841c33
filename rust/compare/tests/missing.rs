//! How many bits were missing: every count is met, and slips in it have to be found in every question that they show in, and in
//! no other.

use std::cell::Cell;
use std::cmp::Ordering::{self, Equal, Greater, Less};

use avsplus_sys::{Bin, Golomb, PairBin, PlainBin, SignedNumber, Started, AVSPLUS_PAYLOAD_OUT};
use compare::{run, Decoder, Decoders, Plan, Report, DECODERS, LIBRARY, REFERENCE};
use independent::generate::{MISSING_OF_BINS, MISSING_OF_NUMBERS, MISSING_OF_STARTS};

/// The questions that are asked of bits, in the report's order.
const NUMBERS: [&str; 2] = ["unsigned golomb", "signed golomb"];
const START: &str = "start";
const BINS: [&str; 4] = ["decode", "decode pair", "bypass", "stuffing"];

fn small(decoders: Decoders<'_>) -> Report {
    // What is cut does not depend on the seed.
    let plan = Plan {
        seed: 1,
        count: 100,
        small: true,
    };
    run(&plan, decoders)
}

/// Every count, by each question that can have it, of payloads said to have fewer bits than the bytes hold, as many and more,
/// and from places before the end, at it and past it.
#[test]
fn all_counts_are_met() {
    let report = small(Decoders {
        reference: &REFERENCE,
        library: &REFERENCE,
        wrappers: [&REFERENCE; 2],
    });
    for (bits, place) in [Less, Equal, Greater]
        .into_iter()
        .flat_map(|bits| [Less, Equal, Greater].map(|place| (bits, place)))
    {
        let met = |question| report.counts_missing(question, bits, place);
        for question in NUMBERS {
            let expected = if place == Less { MISSING_OF_NUMBERS } else { 1..=1 };
            assert_eq!(
                met(question),
                expected.collect::<Vec<_>>(),
                "{} {:?} {:?}",
                question,
                bits,
                place
            );
        }
        assert_eq!(met(START), of_start(bits, place), "{:?} {:?}", bits, place);
        for question in BINS {
            // A place past the end is BAD STATE.
            let expected = if place == Greater { vec![] } else { MISSING_OF_BINS.collect() };
            assert_eq!(met(question), expected, "{} {:?} {:?}", question, bits, place);
        }
    }
}

/// A start reads from place 0, which is the end where there is no bit. Whole bytes lack all nine bits, or one.
fn of_start(bits: Ordering, place: Ordering) -> Vec<u32> {
    let all = *MISSING_OF_STARTS.end();
    match (bits, place) {
        (Less, Less) => (1..all).collect(),
        (_, Less) => vec![1],
        (_, Equal) => vec![all],
        (_, Greater) => vec![],
    }
}

/// A question of bits.
#[derive(Clone, Copy, PartialEq)]
enum Of {
    Number,
    Start,
    Bin,
    /// Of a stuffing bin, whether the range becomes 1, which eight bits double up to 256.
    Stuffing(bool),
}

#[derive(Clone, Copy)]
struct Asked<'a> {
    of: Of,
    bytes: &'a [u8],
    bits: usize,
    place: usize,
}

impl Asked<'_> {
    /// The payload's own bits.
    fn end(&self) -> usize {
        self.bits.min(8 * self.bytes.len())
    }

    /// How wide the read is that the bits do not suffice for.
    fn width(&self) -> u32 {
        let is_one = |i: &usize| self.bytes[i / 8] << (i % 8) & 0x80 != 0;
        match self.of {
            Of::Start if self.end() < 9 => 9,
            Of::Number => {
                let first_one = (self.place..self.end()).find(is_one);
                first_one.map_or(1, |one| (one - self.place) as u32)
            }
            _ => 1,
        }
    }
}

/// What is wrong with the count.
#[derive(Clone, Copy, Debug)]
enum Slip {
    Nothing,
    /// The bits that are there for those that are not.
    There,
    AlwaysOne,
    /// All that the read wanted, whatever is there.
    WholeWidth,
    Zero,
    /// The first nine bits are read one by one.
    NineOneByOne,
    /// The bits of b are.
    BOneByOne,
    /// The bits that double the range are one read.
    DoublingsAtOnce,
    /// Bits between the end and a place past it are counted too.
    FromThePlace,
    /// What is there is counted in the bytes, past the bit count.
    ByTheBytes,
    /// What is there is counted by the bit count, past the bytes.
    ByTheBitCount,
    /// One count is one too great.
    OneMore(u32),
    /// A status that carries no count has one.
    Given(u32),
}

impl Slip {
    /// The count of an answer with this slip.
    fn made_in(self, asked: Asked, status: u32, missing: u32) -> u32 {
        match self {
            Slip::Given(to) if to == status => 1,
            _ if status != AVSPLUS_PAYLOAD_OUT => missing,
            _ => self.of_payload_out(asked, missing),
        }
    }

    fn of_payload_out(self, asked: Asked, missing: u32) -> u32 {
        let Asked { of, bytes, bits, place } = asked;
        let end = asked.end();
        // Of more bits that would be there at least one is still missing.
        let less = |more: usize| (missing as usize).saturating_sub(more).max(1) as u32;
        match self {
            Slip::There => asked.width() - missing,
            Slip::WholeWidth => asked.width(),
            Slip::Zero => 0,
            Slip::AlwaysOne => 1,
            Slip::NineOneByOne if of == Of::Start => 1,
            Slip::BOneByOne if of == Of::Number => 1,
            Slip::DoublingsAtOnce if of == Of::Stuffing(true) => (place + 8).saturating_sub(end).max(1) as u32,
            Slip::FromThePlace => missing.saturating_add(place.saturating_sub(end) as u32),
            Slip::ByTheBytes => less(8 * bytes.len() - end),
            Slip::ByTheBitCount => less(bits - end),
            Slip::OneMore(than) if than == missing => missing + 1,
            _ => missing,
        }
    }

    /// The questions with an answer that it changes.
    fn shows_in(self) -> Vec<&'static str> {
        let (numbers, start, bins): (&[_], _, &[_]) = match self {
            Slip::Nothing => (&[], false, &[]),
            Slip::There | Slip::Zero | Slip::Given(0 | 13) => (&NUMBERS, true, &BINS),
            Slip::AlwaysOne | Slip::WholeWidth | Slip::ByTheBytes | Slip::ByTheBitCount => (&NUMBERS, true, &[]),
            Slip::NineOneByOne => (&[], true, &[]),
            Slip::BOneByOne | Slip::FromThePlace | Slip::Given(8) => (&NUMBERS, false, &[]),
            Slip::DoublingsAtOnce => (&[], false, &BINS[3..]),
            Slip::Given(_) => (&[], false, &BINS),
            Slip::OneMore(than) => {
                let bins: &[_] = if MISSING_OF_BINS.contains(&than) { &BINS } else { &[] };
                (&NUMBERS, MISSING_OF_STARTS.contains(&than), bins)
            }
        };
        let start = Some(START).filter(|_| start);
        numbers.iter().copied().chain(start).chain(bins.iter().copied()).collect()
    }
}

fn slips() -> Vec<Slip> {
    let mut slips = vec![
        Slip::There,
        Slip::AlwaysOne,
        Slip::WholeWidth,
        Slip::Zero,
        Slip::NineOneByOne,
        Slip::BOneByOne,
        Slip::DoublingsAtOnce,
        Slip::FromThePlace,
        Slip::ByTheBytes,
        Slip::ByTheBitCount,
    ];
    slips.extend(MISSING_OF_NUMBERS.map(Slip::OneMore));
    slips.extend([0, 8, 13, 15].map(Slip::Given));
    slips
}

thread_local! {
    /// The slip of the run under way.
    static SLIP: Cell<Slip> = const { Cell::new(Slip::Nothing) };
}

/// The count of an answer with that slip.
fn slipped(of: Of, lent: (&[u8], usize, usize), status: u32, missing: u32) -> u32 {
    let (bytes, bits, place) = lent;
    let asked = Asked { of, bytes, bits, place };
    SLIP.with(|slip| slip.get()).made_in(asked, status, missing)
}

fn unsigned(bytes: &[u8], bits: usize, place: usize) -> Golomb {
    let read = (LIBRARY.unsigned_golomb)(bytes, bits, place);
    let missing = slipped(Of::Number, (bytes, bits, place), read.status, read.missing);
    Golomb { missing, ..read }
}

fn signed(bytes: &[u8], bits: usize, place: usize) -> SignedNumber {
    let read = (LIBRARY.signed_golomb)(bytes, bits, place);
    let missing = slipped(Of::Number, (bytes, bits, place), read.status, read.missing);
    SignedNumber { missing, ..read }
}

fn plain(of: Of, lent: (&[u8], usize, usize), bin: PlainBin) -> PlainBin {
    let missing = slipped(of, lent, bin.status, bin.missing);
    PlainBin { missing, ..bin }
}

/// The decoder with the slip made in all these questions.
fn slip_in(decoder: &Decoder) -> Decoder {
    Decoder {
        unsigned_golomb: unsigned,
        signed_golomb: signed,
        start: |bytes, bits, state| {
            let started = (LIBRARY.start)(bytes, bits, state);
            let missing = slipped(Of::Start, (bytes, bits, 0), started.status, started.missing);
            Started { missing, ..started }
        },
        decode: |bytes, bits, state, context| {
            let bin = (LIBRARY.decode)(bytes, bits, state, context);
            let missing = slipped(Of::Bin, (bytes, bits, state.place), bin.status, bin.missing);
            Bin { missing, ..bin }
        },
        decode_pair: |bytes, bits, state, first, second| {
            let bin = (LIBRARY.decode_pair)(bytes, bits, state, first, second);
            let missing = slipped(Of::Bin, (bytes, bits, state.place), bin.status, bin.missing);
            PairBin { missing, ..bin }
        },
        bypass: |bytes, bits, state| plain(Of::Bin, (bytes, bits, state.place), (LIBRARY.bypass)(bytes, bits, state)),
        stuffing: |bytes, bits, state| {
            let of = Of::Stuffing(state.rt > 0);
            plain(of, (bytes, bits, state.place), (LIBRARY.stuffing)(bytes, bits, state))
        },
        ..*decoder
    }
}

/// The questions in which the slip is found.
fn found(slip: Slip, decoders: Decoders) -> Vec<&'static str> {
    SLIP.with(|current| current.set(slip));
    small(decoders).differing_questions()
}

#[test]
fn every_slip_is_found_in_each_question() {
    let library = slip_in(&LIBRARY);
    let decoders = DECODERS.with_library(&library);
    assert!(found(Slip::Nothing, decoders).is_empty());
    for slip in slips() {
        assert_eq!(found(slip, decoders), slip.shows_in(), "{:?}", slip);
    }
}

/// Both wrappers are asked for every count.
#[test]
fn every_other_count_of_either_wrapper_is_found() {
    for which in 0..2 {
        let wrapper = slip_in(DECODERS.wrappers[which]);
        let decoders = DECODERS.with_wrapper(which, &wrapper);
        for slip in MISSING_OF_NUMBERS.map(Slip::OneMore) {
            assert_eq!(found(slip, decoders), slip.shows_in(), "{:?} by wrapper {}", slip, which);
        }
    }
}
