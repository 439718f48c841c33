//! Slips of a search that steps over bytes: what it passes over has to be found, and a search that passes over nothing has none.

use compare::{run, Plan, Report, DECODERS, LIBRARY};

/// The search by third bytes, with the places that it goes past at a 00, at a 01 that ends no prefix, and at any other byte.
fn stepping(stream: &[u8], from: usize, past: [usize; 3]) -> usize {
    let mut at = from;
    while let Some(three) = at.checked_add(3).and_then(|end| stream.get(at..end)) {
        if three == [0, 0, 1] {
            return at;
        }
        at += past[usize::from(three[2].min(2))];
    }
    stream.len()
}

/// A search, and what it does.
type Search = (&'static str, fn(&[u8], usize) -> usize);

const SLIPS: [Search; 9] = [
    ("three places past a 00", |s, from| stepping(s, from, [3, 3, 3])),
    ("two places past a 00", |s, from| stepping(s, from, [2, 3, 3])),
    ("four places past a 01", |s, from| stepping(s, from, [1, 4, 3])),
    ("four places past another byte", |s, from| stepping(s, from, [1, 3, 4])),
    ("one byte late", |s, from| stepping(s, from.saturating_add(1), [1, 3, 3])),
    ("from the start", |s, _| stepping(s, 0, [1, 3, 3])),
    ("the last three bytes missed", |s, from| {
        let place = (LIBRARY.next_start_code)(s, from);
        place + 3 * usize::from(place + 3 == s.len())
    }),
    ("none after twelve bytes", |s, from| {
        let place = (LIBRARY.next_start_code)(s, from);
        if place < s.len() && place - from > 12 {
            s.len()
        } else {
            place
        }
    }),
    ("past the end from past the end", |s, from| {
        (LIBRARY.next_start_code)(s, from).max(from)
    }),
];

/// Steps that pass over nothing, the longest and the shortest: the answers are the same.
const RIGHT: [Search; 2] = [
    ("by third bytes", |s, from| stepping(s, from, [1, 3, 3])),
    ("one by one", |s, from| stepping(s, from, [1, 1, 1])),
];

fn compared(search: fn(&[u8], usize) -> usize) -> Report {
    let mut library = LIBRARY;
    library.next_start_code = search;
    let plan = Plan {
        seed: 1,
        count: 500,
        small: true,
    };
    run(&plan, DECODERS.with_library(&library))
}

#[test]
fn every_slip_is_found() {
    for (name, search) in SLIPS {
        assert!(compared(search).differences > 0, "{}", name);
    }
}

#[test]
fn any_right_search_agrees() {
    for (name, search) in RIGHT {
        let report = compared(search);
        assert_eq!(report.differences, 0, "{}: {}", name, report);
    }
}
