//! Slips in the number and the bit of a refusal: each has to be found in every question that it shows in, and in no other.

use std::cell::Cell;

use avsplus_sys::{Answer, AVSPLUS_NO_BIT};
use compare::{run, Decoder, Decoders, Plan, DECODERS, LIBRARY};
use independent::generate::BITS;

/// What is wrong with an answer.
#[derive(Clone, Copy, Debug)]
enum Slip {
    Nothing,
    /// The bit where reading stands after the field.
    AfterTheField,
    /// The bit is counted from the unit's start code, 32 bits before its body.
    FromTheUnit,
    /// The copyright number's last part for its first.
    PartThree,
    /// Order for row and row for order. One tested after the other would not show: no stream breaks both, since the slice before
    /// is in the rows.
    OrderAndRowSwapped,
    /// A display extension's places without colour where colour is given.
    PlainForColoured,
    /// A layout's first marker for each of its markers.
    FirstMarker,
    /// One field has the number that all had before.
    ValueKept(u32),
    /// One status has not got its bit.
    Lost(u32),
    /// One status that has no bit gets one.
    Given(u32),
}

/// How wide the field of a refusal is; a slice's is its code byte.
fn width(status: u32) -> usize {
    match status {
        20 | 21 => 14,
        22 | 28 => 2,
        23 => 3,
        24 | 25 => 4,
        26 | 27 | 29 | 31 | 32 => 8,
        30 => 20,
        _ => 1,
    }
}

impl Slip {
    /// Status and bit of an answer with this slip.
    fn made_in(self, status: u32, bit: usize) -> (u32, usize) {
        match (self, status, bit) {
            (Slip::AfterTheField, _, 0..=99) => (status, bit + width(status)),
            (Slip::FromTheUnit, _, 0..=99) => (status, bit + 32),
            (Slip::PartThree, 30, _) => (30, 66),
            (Slip::OrderAndRowSwapped, 31, _) => (32, bit),
            (Slip::OrderAndRowSwapped, 32, _) => (31, bit),
            (Slip::PlainForColoured, 7, 47) => (7, 23),
            (Slip::PlainForColoured, 28, 62) => (28, 38),
            (Slip::FirstMarker, 7, 90) => (7, 76),
            (Slip::FirstMarker, 7, 42 | 65) => (7, 21),
            (Slip::ValueKept(of), _, _) if of == status => (8, bit),
            (Slip::Lost(of), _, _) if of == status => (status, AVSPLUS_NO_BIT),
            (Slip::Given(to), _, _) if to == status => (status, 0),
            _ => (status, bit),
        }
    }
}

fn slips() -> Vec<Slip> {
    let mut slips = vec![
        Slip::AfterTheField,
        Slip::FromTheUnit,
        Slip::PartThree,
        Slip::OrderAndRowSwapped,
        Slip::PlainForColoured,
        Slip::FirstMarker,
    ];
    slips.extend((20..=32).map(Slip::ValueKept));
    slips.extend((20..=32).chain([7]).map(Slip::Lost));
    slips.extend(OF_GROUPS.plain.iter().map(|&status| Slip::Given(status)));
    slips
}

/// A question: its name, the statuses without a bit that it can have, and which ones with a bit.
struct Question {
    name: &'static str,
    plain: &'static [u32],
    has: fn(u32, u64) -> bool,
}

/// Has every status that any of them has.
const OF_GROUPS: Question = Question {
    name: "group",
    plain: &[0, 1, 2, 3, 4, 5, 6, 9, 10, 11, 12, 13, 16],
    has: |_, _| true,
};

/// In the report's order.
const QUESTIONS: [Question; 5] = [
    Question {
        name: "check",
        plain: &[0, 1, 2, 3, 4, 5, 6, 9, 10, 11, 13],
        has: |_, _| true,
    },
    Question {
        name: "file",
        plain: &[0, 1, 2, 3, 4, 5, 6, 9, 10, 11, 12, 13],
        has: |_, _| true,
    },
    OF_GROUPS,
    Question {
        name: "sequence header",
        plain: &[0, 6, 9, 12],
        has: |status, bit| matches!((status, bit), (7, 76 | 90) | (20..=25, _)),
    },
    Question {
        name: "extension",
        plain: &[0, 6, 9, 12],
        has: |status, bit| matches!((status, bit), (7, 21 | 23 | 42 | 47 | 65) | (26..=30, _)),
    },
];

/// The questions with an answer that the slip changes.
fn expected(slip: Slip) -> Vec<&'static str> {
    let changed = |status, bit| slip.made_in(status, bit) != (status, bit);
    let shows = |question: &&Question| {
        let mut with_bit = BITS.iter().filter(|&&(status, bit)| (question.has)(status, bit));
        let plain = question.plain.iter().any(|&status| changed(status, AVSPLUS_NO_BIT));
        plain || with_bit.any(|&(status, bit)| changed(status, bit as usize))
    };
    QUESTIONS.iter().filter(shows).map(|question| question.name).collect()
}

thread_local! {
    /// The slip of the run under way.
    static SLIP: Cell<Slip> = const { Cell::new(Slip::Nothing) };
}

fn slipped(answer: Answer) -> Answer {
    let slip = SLIP.with(|slip| slip.get());
    let (status, bit) = slip.made_in(answer.status, answer.bit);
    Answer { status, bit, ..answer }
}

/// The decoder with the slip made in all these questions.
fn slip_in(decoder: &Decoder) -> Decoder {
    Decoder {
        check: |stream| slipped((LIBRARY.check)(stream)),
        file: |stream, rows| slipped((LIBRARY.file)(stream, rows)),
        group: |stream, g, numbers| slipped((LIBRARY.group)(stream, g, numbers)),
        sequence_header: |body, numbers| slipped((LIBRARY.sequence_header)(body, numbers)),
        extension: |body, in_head, numbers| slipped((LIBRARY.extension)(body, in_head, numbers)),
        ..*decoder
    }
}

/// The questions in which the slip is found.
fn found(slip: Slip, decoders: Decoders) -> Vec<&'static str> {
    let plan = Plan {
        seed: 1,
        count: 600,
        small: true,
    };
    SLIP.with(|current| current.set(slip));
    run(&plan, decoders).differing_questions()
}

#[test]
fn every_slip_is_found_in_each_question() {
    let library = slip_in(&LIBRARY);
    let decoders = DECODERS.with_library(&library);
    assert!(found(Slip::Nothing, decoders).is_empty());
    for slip in slips() {
        assert!(!expected(slip).is_empty(), "{:?}", slip);
        assert_eq!(found(slip, decoders), expected(slip), "{:?}", slip);
    }
}

/// Both wrappers are asked for every status with every bit.
#[test]
fn every_lost_bit_of_either_wrapper_is_found() {
    for which in 0..2 {
        let wrapper = slip_in(DECODERS.wrappers[which]);
        let decoders = DECODERS.with_wrapper(which, &wrapper);
        for slip in slips().into_iter().filter(|slip| matches!(slip, Slip::Lost(_))) {
            assert_eq!(found(slip, decoders), expected(slip), "{:?} by wrapper {}", slip, which);
        }
    }
}
