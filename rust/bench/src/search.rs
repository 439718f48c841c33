//! The search for 00 00 01, on inputs of several kinds. More rivals than are here can be given.
use crate::inputs::{self, Random};
use crate::measure::{measure, Measured, Rival, Scale, Work, BYTE_WISE, LIBRARY, SAME};
use crate::{library, plain_c, plain_rust, Row};
use std::iter::successors;

/// The first place of 00 00 01 in the bytes, from a place on; where there is none, how many bytes there are.
pub type Next = dyn Fn(&[u8], usize) -> usize;

/// A rival's name and its search.
pub type Searcher<'a> = (&'static str, &'a Next);

const NEXT: [Searcher; 6] = [
    (LIBRARY, &library::next_start_code),
    (SAME, &plain_c::next_by_three),
    (BYTE_WISE, &plain_c::next_bytewise),
    ("glibc memmem", &plain_c::next_memmem),
    ("plain Rust, steps of three", &plain_rust::next_by_three),
    ("plain Rust, windows", &plain_rust::next_by_windows),
];

/// An input of so many bytes.
type Input = fn(usize) -> Vec<u8>;

/// As in video; units so short that a call is most of the cost; and bytes of which a search steps over most, or over few.
const INPUTS: [(&str, Input); 5] = [
    ("search", |length| inputs::start_codes(length, 65536)),
    ("search-short", |length| inputs::start_codes(length, 24)),
    ("search-no-00", |length| inputs::no_zeros(&mut Random::new(8), length)),
    ("search-all-00", |length| inputs::repeated(&[0], length)),
    ("search-00-01", |length| inputs::repeated(&[0, 1], length)),
];

/// The search rows, with rivals besides those that are here.
pub fn search_rows<'a>(more: &'a [Searcher]) -> Vec<Row<'a>> {
    let row = |&(name, input): &(&'static str, Input)| -> Row<'a> {
        (name, Box::new(move |scale| search(name, scale, &input(scale.stream), more)))
    };
    INPUTS.iter().map(row).collect()
}

fn search(row: &'static str, scale: Scale, stream: &[u8], more: &[Searcher]) -> Measured {
    let searchers: Vec<Searcher> = NEXT.iter().chain(more).copied().collect();
    check_hits(&searchers, stream);
    check_short_strings(&searchers);
    let rivals = searchers.iter().map(|&(name, next)| {
        let run = Box::new(move || hits(next, stream).map(|at| at as u64).sum());
        Rival { name, run }
    });
    let work = Work {
        unit: "byte",
        amount: stream.len(),
    };
    measure(row, work, scale.repeats, rivals.collect())
}

/// From hit to hit.
fn hits<'a>(next: &'a Next, stream: &'a [u8]) -> impl Iterator<Item = usize> + 'a {
    let hit = move |from| Some(next(stream, from)).filter(|&at| at < stream.len());
    successors(hit(0), move |&at| hit(at + 1))
}

fn check_hits(searchers: &[Searcher], stream: &[u8]) {
    for &(name, next) in searchers {
        let expected = hits(&library::next_start_code, stream);
        assert!(hits(next, stream).eq(expected), "{}: other hits", name);
        assert_eq!(next(stream, usize::MAX), stream.len(), "{}: past the end", name);
    }
}

/// How long the short strings are at most: two prefixes, and a byte beside them.
const SHORT: u32 = 7;

/// Rivals answer alike on all short strings, from every place and from past the end.
fn check_short_strings(searchers: &[Searcher]) {
    for stream in inputs::short_strings(SHORT) {
        for from in (0..=stream.len() + 3).chain(usize::MAX - 3..=usize::MAX) {
            let expected = library::next_start_code(&stream, from);
            for &(name, next) in searchers {
                assert_eq!(next(&stream, from), expected, "{}: in {:?} from {}", name, stream, from);
            }
        }
    }
}
