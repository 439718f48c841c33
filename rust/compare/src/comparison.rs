//! Asking: every question goes to the independent decoder and to the library, and now and then to the safe crate.

use std::fmt::Debug;

use avsplus_sys::{
    Answer, Bin, Context, Golomb, PairBin, Part, PlainBin, SignedNumber, Started, AVSPLUS_DONE, AVSPLUS_NO_BIT,
    AVSPLUS_NO_KIND, AVSPLUS_NO_ROW, AVSPLUS_UNKNOWN,
};

use crate::decoder::Decoder;
use crate::report::{Difference, Question, Report};

/// Bytes of an input that a difference shows.
const SHOWN_BYTES: usize = 200;
/// Words of lent memory that a difference shows, from the first that differs on.
const SHOWN_WORDS: usize = 16;
/// Words before and after what is lent: nothing may be written there.
const GUARD: usize = 4;
/// One input in so many goes to each wrapper; prime to the alphabets' sizes, so that all letters come by.
const WRAPPED_SHARE: u64 = 5;

/// What a question is answered with.
pub(crate) trait Answered: PartialEq + Debug {
    fn status(&self) -> u32 {
        AVSPLUS_DONE
    }

    /// Of a refusal that carries a bit, its offset and the bit.
    fn bit(&self) -> Option<(usize, usize)> {
        None
    }

    /// Of PAYLOAD OUT, how many bits were missing.
    fn missing(&self) -> Option<u32> {
        None
    }

    /// The answer in words, where it differs from another.
    fn show(&self, _other: &Self) -> String {
        format!("{:?}", self)
    }
}

macro_rules! answered_of_bits {
    ($($answer:ty),*) => {
        $(impl Answered for $answer {
            fn status(&self) -> u32 {
                self.status
            }

            fn missing(&self) -> Option<u32> {
                Some(self.missing).filter(|missing| *missing > 0)
            }
        })*
    };
}

answered_of_bits!(Golomb, SignedNumber, Started, PlainBin, Bin, PairBin);

impl Answered for Answer {
    fn status(&self) -> u32 {
        self.status
    }

    fn bit(&self) -> Option<(usize, usize)> {
        match self.bit {
            AVSPLUS_NO_BIT => None,
            bit => Some((self.offset, bit)),
        }
    }
}

impl Answered for Context {}

/// A place in a stream.
impl Answered for usize {}

/// A kind.
impl Answered for u32 {
    fn status(&self) -> u32 {
        match *self {
            AVSPLUS_NO_KIND => AVSPLUS_UNKNOWN,
            _ => AVSPLUS_DONE,
        }
    }
}

/// An entry of a table, or the mark that is none.
#[derive(Debug, PartialEq)]
pub(crate) struct Entry(pub u32);

impl Answered for Entry {}

/// Whether a row exists, and where its body lies.
impl Answered for (bool, Part) {
    fn status(&self) -> u32 {
        if self.0 {
            AVSPLUS_DONE
        } else {
            AVSPLUS_NO_ROW
        }
    }
}

/// An answer with the memory that was lent for it, and the guard words around.
#[derive(Debug, PartialEq)]
pub(crate) struct Lent<T> {
    pub answer: Answer,
    memory: Vec<T>,
}

impl<T: Pattern> Lent<T> {
    /// The memory that was lent, without the guard words.
    pub fn words(&self) -> &[T] {
        &self.memory[GUARD..self.memory.len() - GUARD]
    }
}

impl<T: Pattern> Answered for Lent<T> {
    fn status(&self) -> u32 {
        self.answer.status
    }

    fn bit(&self) -> Option<(usize, usize)> {
        self.answer.bit()
    }

    fn show(&self, other: &Self) -> String {
        let same = self.memory.iter().zip(&other.memory).take_while(|(a, b)| a == b).count();
        if same == self.memory.len() {
            return format!("{:?}, lent memory alike", self.answer);
        }
        let words: Vec<&T> = self.memory.iter().skip(same).take(SHOWN_WORDS).collect();
        let first = same as i64 - GUARD as i64;
        format!("{:?}, lent memory from word {} on {:X?}", self.answer, first, words)
    }
}

/// Something that lent memory is made of.
pub(crate) trait Pattern: Copy + PartialEq + Debug {
    /// What stands in word `i` before a call: different from word to word, so that a shift shows.
    fn before(i: usize) -> Self;
}

impl Pattern for u8 {
    fn before(i: usize) -> u8 {
        0x5A ^ (i as u8).wrapping_mul(37)
    }
}

impl Pattern for u32 {
    fn before(i: usize) -> u32 {
        0xA5A5_0000 ^ i as u32
    }
}

impl Pattern for u64 {
    fn before(i: usize) -> u64 {
        0xA5A5_5A5A_C3C3_0000 ^ i as u64
    }
}

/// Lends `room` words filled with the pattern to a call.
pub(crate) fn lend<T: Pattern>(room: usize, call: impl Fn(&mut [T]) -> Answer) -> Lent<T> {
    let mut memory: Vec<T> = (0..GUARD + room + GUARD).map(T::before).collect();
    let answer = call(&mut memory[GUARD..GUARD + room]);
    Lent { answer, memory }
}

/// One too few for `wanted` words, exactly enough, and some over.
pub(crate) fn rooms(wanted: usize) -> [usize; 3] {
    [wanted.saturating_sub(1), wanted, wanted + 3]
}

/// None, and one too few, exactly enough and one too many for each count of numbers that a group or an extension has.
pub(crate) const ALL_ROOMS: [usize; 19] = [0, 1, 2, 4, 5, 6, 7, 8, 9, 10, 13, 14, 15, 18, 19, 20, 21, 22, 23];

/// What a question comes with beside the input, in words; made only for a difference.
pub(crate) type With<'a> = &'a dyn Fn() -> String;

/// Nothing beside the input.
pub(crate) fn alone() -> String {
    "the input alone".to_string()
}

/// What a payload is read with: how many bits it is said to have, and the place that reading begins at.
#[derive(Clone, Copy)]
pub(crate) struct Reading {
    pub bits: usize,
    pub place: usize,
}

/// Who is asked.
#[derive(Clone, Copy)]
pub struct Decoders<'a> {
    pub reference: &'a Decoder,
    pub library: &'a Decoder,
    /// Asked for a share of the inputs each.
    pub wrappers: [&'a Decoder; 2],
}

impl<'a> Decoders<'a> {
    /// These, with another library.
    pub fn with_library(self, library: &'a Decoder) -> Decoders<'a> {
        Decoders { library, ..self }
    }

    /// These, with another wrapper in the place of one.
    pub fn with_wrapper(self, which: usize, wrapper: &'a Decoder) -> Decoders<'a> {
        let mut wrappers = self.wrappers;
        wrappers[which] = wrapper;
        Decoders { wrappers, ..self }
    }
}

/// A comparison under way.
pub(crate) struct Comparison<'a> {
    decoders: Decoders<'a>,
    report: Report,
    /// The input that questions are asked about, as it was before.
    input: Box<[u8]>,
    /// Whether all wrappers are asked about it.
    for_all: bool,
}

/// A part of an input in hexadecimal.
fn hexadecimal(bytes: &[u8]) -> String {
    let shown: Vec<String> = bytes.iter().take(SHOWN_BYTES).map(|byte| format!("{:02X}", byte)).collect();
    let rest = if bytes.len() > SHOWN_BYTES { " .." } else { "" };
    format!("{} bytes: {}{}", bytes.len(), shown.join(" "), rest)
}

impl<'a> Comparison<'a> {
    pub fn new(decoders: Decoders<'a>) -> Self {
        Comparison {
            decoders,
            report: Report::new(),
            input: Box::default(),
            for_all: false,
        }
    }

    pub fn finish(self) -> Report {
        self.report
    }

    /// Asks questions about one input, and looks whether it has stayed as it was.
    pub fn input(&mut self, bytes: Vec<u8>, questions: impl FnOnce(&mut Self, &[u8])) {
        // Without spare room a read past the end can be seen by a memory checker.
        let lent = bytes.into_boxed_slice();
        self.input = lent.clone();
        self.report.inputs += 1;
        let before = self.report.differences;
        questions(self, &lent);
        let kept = &self.input;
        if lent != *kept {
            self.report.difference(|| Difference {
                what: "the input was written to".to_string(),
                sides: [("before", hexadecimal(kept)), ("after", hexadecimal(&lent))],
            });
        }
        if self.report.differences > before {
            self.report.name_input(before, &hexadecimal(kept));
        }
    }

    /// The same, with each wrapper asked whosever turn it is.
    pub fn input_for_all(&mut self, bytes: Vec<u8>, questions: impl FnOnce(&mut Self, &[u8])) {
        self.for_all = true;
        self.input(bytes, questions);
        self.for_all = false;
    }

    /// Whether the unit at an offset of the input is in a later group than the first; the units before it are good.
    fn is_in_later_group(&self, offset: usize) -> bool {
        let units = self.input.windows(4).take(offset + 1);
        units.filter(|unit| *unit == [0, 0, 1, 0xB0]).count() > 1
    }

    /// Asks all decoders; answers what the independent one does.
    pub fn ask<T: Answered>(&mut self, question: Question, with: With, call: impl Fn(&Decoder) -> T) -> T {
        let Decoders {
            reference,
            library,
            wrappers,
        } = self.decoders;
        let expected = call(reference);
        self.report.met(question, expected.status());
        if let Some((offset, bit)) = expected.bit() {
            let later = self.is_in_later_group(offset);
            self.report.carried(question, expected.status(), bit, later);
        }
        let (for_all, turn) = (self.for_all, (self.report.inputs % WRAPPED_SHARE) as usize);
        let asked = wrappers.iter().enumerate().filter(|(i, _)| for_all || *i == turn);
        for decoder in [library].into_iter().chain(asked.map(|(_, wrapper)| *wrapper)) {
            let answered = call(decoder);
            self.hold(question, with, (reference.name, &expected), (decoder.name, &answered));
        }
        expected
    }

    /// Holds an answer to another, each with whose it is.
    fn hold<T: Answered>(
        &mut self,
        question: Question,
        with: With,
        expected: (&'static str, &T),
        answered: (&'static str, &T),
    ) {
        if answered.1 == expected.1 {
            return;
        }
        self.report.differing(question);
        self.report.difference(|| Difference {
            what: format!("{}, {}", question.name(), with()),
            sides: [
                (expected.0, expected.1.show(answered.1)),
                (answered.0, answered.1.show(expected.1)),
            ],
        });
    }

    /// Asks all decoders, and holds them to an answer that comes from elsewhere; answers what the independent one does.
    pub fn ask_for<T: Answered>(
        &mut self,
        question: Question,
        with: With,
        expected: (&'static str, &T),
        call: impl Fn(&Decoder) -> T,
    ) -> T {
        let answered = self.ask(question, with, call);
        self.hold(question, with, expected, (self.decoders.reference.name, &answered));
        answered
    }

    /// Counts a place at which a recording was cut.
    pub fn cut(&mut self, place: &'static str, filed: bool) {
        self.report.cut(place, filed);
    }

    /// Counts a recording that was cut, with its B0 start codes.
    pub fn cut_all(&mut self, headers: usize) {
        self.report.cut_all(headers);
    }

    /// Asks of a payload's bits; the bits that were missing are counted by how it was read.
    pub fn ask_of_bits<T: Answered>(
        &mut self,
        question: Question,
        reading: Reading,
        with: With,
        call: impl Fn(&Decoder) -> T,
    ) -> T {
        let answer = self.ask(question, with, call);
        if let Some(missing) = answer.missing() {
            let held = 8 * self.input.len();
            let end = reading.bits.min(held);
            let (bits, place) = (reading.bits.cmp(&held), reading.place.cmp(&end));
            self.report.missing(question, missing, bits, place);
        }
        answer
    }

    /// Asks for numbers with each of some rooms lent, the last of them enough; answers the status with that.
    pub fn numbers(
        &mut self,
        question: Question,
        with: With,
        rooms: &[usize],
        call: impl Fn(&Decoder, &mut [u64]) -> Answer,
    ) -> u32 {
        let statuses = rooms.iter().map(|&room| {
            let with = || format!("{}, {} numbers lent", with(), room);
            let Answer { status, count, .. } = self
                .ask(question, &with, |decoder| lend(room, |numbers| call(decoder, numbers)))
                .answer;
            if status == AVSPLUS_DONE {
                self.report.handed_over(question, count);
            }
            status
        });
        statuses.last().unwrap_or(AVSPLUS_DONE)
    }
}
