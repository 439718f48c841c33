//! Recordings cut at every place (document 02, E12): what follows a B0 start code is filed, with the rows from there on, each
//! offset less by what was dropped; what follows any other place is not. Both decoders are held to that by the rows of the whole.

use avsplus_sys::{
    Answer, AVSPLUS_DONE, AVSPLUS_NO_CODE, AVSPLUS_OUT_OF_PLACE, AVSPLUS_ROW_CODE, AVSPLUS_ROW_OFFSET, AVSPLUS_ROW_WORDS,
};
use independent::generate::{recordings_to_cut, stream, Random};
use independent::kind;

use crate::comparison::{lend, Comparison, Lent};
use crate::decoder::{done, refused};
use crate::report::Question;
use crate::streams::{file, start_codes};

/// Whose answer it is that follows from the rows of the whole.
const BY_THE_WHOLE: &str = "by the rows of the whole";
const HEADER: u32 = 0xB0;
/// 00 00 01 and a code byte.
const START_CODE: usize = 4;
/// Places past the end that are asked too.
const PAST: usize = 2;

type Row = [u32; AVSPLUS_ROW_WORDS];

/// A recording with its rows.
struct Whole<'a> {
    stream: &'a [u8],
    rows: Vec<Row>,
}

impl Whole<'_> {
    /// Where unit `i` begins; after the last one the end.
    fn start(&self, i: usize) -> usize {
        self.rows
            .get(i)
            .map_or(self.stream.len(), |row| row[AVSPLUS_ROW_OFFSET] as usize)
    }

    /// What a place is.
    fn place(&self, place: usize) -> &'static str {
        if place >= self.stream.len() {
            return if place == self.stream.len() {
                "the end"
            } else {
                "past the end"
            };
        }
        let after = (0..self.rows.len())
            .find(|&i| self.start(i) > place)
            .unwrap_or(self.rows.len());
        let unit = after.saturating_sub(1);
        match place - self.start(unit) {
            0 => kind(self.rows[unit][AVSPLUS_ROW_CODE] as u8).unwrap_or("no unit"),
            inside if inside < START_CODE => "in a start code",
            _ if self.stream[place..self.start(after)].iter().all(|byte| *byte == 0) => "zeros before a start code",
            _ => "in a body",
        }
    }

    /// The rows from a place on, each offset less by what was dropped, where a B0 start code stands there; else the refusal.
    fn cut(&self, place: usize) -> Result<Vec<Row>, Answer> {
        match (0..self.rows.len()).find(|&i| self.start(i) == place) {
            Some(i) if self.rows[i][AVSPLUS_ROW_CODE] == HEADER => {
                Ok(self.rows[i..].iter().map(|row| less(row, place)).collect())
            }
            Some(_) => Err(refused(AVSPLUS_OUT_OF_PLACE, 0, None)),
            None => Err(refused(AVSPLUS_NO_CODE, 0, None)),
        }
    }
}

fn less(row: &Row, dropped: usize) -> Row {
    let mut left = *row;
    left[AVSPLUS_ROW_OFFSET] -= dropped as u32;
    left
}

/// What filing answers and leaves in so many words.
fn filed(cut: &Result<Vec<Row>, Answer>, room: usize) -> Lent<u32> {
    lend(room, |lent| match cut {
        Ok(rows) => {
            let words = rows.concat();
            lent[..words.len()].copy_from_slice(&words);
            done(rows.len())
        }
        Err(refusal) => *refusal,
    })
}

/// Cuts a recording at a place, and asks for what is left: in as many words as its rows have, and in those that held all rows.
fn cut_at(comparison: &mut Comparison, whole: &Whole, place: usize) {
    let cut = whole.cut(place);
    let with = || format!("cut at {}, {}", place, whole.place(place));
    let left = whole.stream.get(place..).unwrap_or_default().to_vec();
    comparison.input(left, |comparison, stream| {
        let checked = cut.as_ref().map_or_else(|refusal| *refusal, |rows| done(rows.len()));
        let answer = comparison.ask_for(Question::Check, &with, (BY_THE_WHOLE, &checked), |decoder| {
            (decoder.check)(stream)
        });
        comparison.cut(whole.place(place), answer.status == AVSPLUS_DONE);
        for units in [cut.as_ref().map_or(0, Vec::len), whole.rows.len()] {
            let room = AVSPLUS_ROW_WORDS * units;
            comparison.ask_for(Question::File, &with, (BY_THE_WHOLE, &filed(&cut, room)), |decoder| {
                lend(room, |rows| (decoder.file)(stream, rows))
            });
        }
    });
}

/// Files a good recording, and cuts it at every place, at its end and past it; answers how many places these are.
fn cut(comparison: &mut Comparison, bytes: Vec<u8>) -> u64 {
    let stream = bytes.clone();
    let mut rows = Vec::new();
    comparison.input(bytes, |comparison, stream| {
        rows = file(comparison, stream, AVSPLUS_ROW_WORDS * start_codes(stream))
    });
    let rows = rows
        .chunks_exact(AVSPLUS_ROW_WORDS)
        .map(|row| [row[0], row[1], row[2]])
        .collect();
    let whole = Whole { stream: &stream, rows };
    let places = stream.len() + 1 + PAST;
    (0..places).for_each(|place| cut_at(comparison, &whole, place));
    let is_header = |unit: &&[u8]| **unit == [0, 0, 1, HEADER as u8];
    comparison.cut_all(stream.windows(START_CODE).filter(is_header).count());
    places as u64
}

/// Every `step`-th of the recordings of up to so many groups, with each ending, full of what start codes are nearly made of.
pub(crate) fn at_all_places(comparison: &mut Comparison, groups: usize, step: usize) {
    for bytes in recordings_to_cut(groups).step_by(step) {
        cut(comparison, bytes);
    }
}

/// Random good recordings, until so many cuts are made.
pub(crate) fn generated(comparison: &mut Comparison, random: &mut Random, count: u64) {
    let mut cuts = 0;
    while cuts < count {
        cuts += cut(comparison, stream(random));
    }
}
