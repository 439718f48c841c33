//! Recordings cut at every place: which places are met, how many cuts are filed, and slips that every decoder makes alike, which
//! only the rows of the whole can show.

use avsplus_sys::Answer;
use compare::{run, Decoder, Decoders, Plan, Report, REFERENCE};

/// The same decoder in everyone's place.
fn alike(decoder: &Decoder) -> Report {
    let plan = Plan {
        seed: 1,
        count: 1500,
        small: true,
    };
    let decoders = Decoders {
        reference: decoder,
        library: decoder,
        wrappers: [decoder; 2],
    };
    run(&plan, decoders)
}

/// Every kind of place, in the order of the report's table.
const PLACES: [&str; 13] = [
    "I picture",
    "P or B picture",
    "edit code",
    "extension",
    "in a body",
    "in a start code",
    "past the end",
    "sequence end",
    "sequence header",
    "slice",
    "the end",
    "user data",
    "zeros before a start code",
];

/// All are filed at a sequence header and none elsewhere, so as many as there are B0 start codes.
#[test]
fn every_place_is_met_and_as_many_cuts_are_filed_as_there_are_headers() {
    let report = alike(&REFERENCE);
    assert_eq!(report.differences, 0, "{}", report);
    assert!(report.cuts().keys().eq(&PLACES), "{}", report);
    for (place, cuts) in report.cuts() {
        let expected = if *place == "sequence header" { cuts.asked } else { 0 };
        assert_eq!(cuts.filed, expected, "{}", place);
    }
    let filed: u64 = report.cuts().values().map(|cuts| cuts.filed).sum();
    assert!(filed > 10, "{}", report);
    assert_eq!(filed, report.headers_cut());
}

/// Zeros before the first start code are passed over.
fn without_zeros(stream: &[u8]) -> &[u8] {
    let zeros = stream.iter().take_while(|byte| **byte == 0).count();
    &stream[zeros.saturating_sub(2)..]
}

/// A recording may begin with a picture: a header is put before it, and taken off again.
fn from_a_picture(stream: &[u8], rows: &mut [u32]) -> Answer {
    const HEADER: [u8; 19] = [
        0, 0, 1, 0xB0, 0x48, 0x40, 0x0F, 0x00, 0x21, 0xC2, 0x4C, 0xC4, 0xE2, 0x08, 0x00, 0x20, 0x02, 0x00, 0x80,
    ];
    if !stream.starts_with(&[0, 0, 1, 0xB3]) {
        return (REFERENCE.file)(stream, rows);
    }
    let mut all = vec![0; rows.len() + 3];
    let answer = (REFERENCE.file)(&[&HEADER, stream].concat(), &mut all);
    if answer.status == 0 {
        for (row, filed) in rows.chunks_exact_mut(3).zip(all[3..3 * answer.count].chunks_exact(3)) {
            row.copy_from_slice(&[filed[0], filed[1] - 19, filed[2]]);
        }
    }
    Answer {
        count: answer.count.saturating_sub(1),
        ..answer
    }
}

/// Rows changed after filing.
fn with_rows(stream: &[u8], rows: &mut [u32], change: impl Fn(usize, &mut [u32])) -> Answer {
    let answer = (REFERENCE.file)(stream, rows);
    for (i, row) in rows.chunks_exact_mut(3).take(answer.count).enumerate() {
        change(i, row);
    }
    answer
}

/// UNENDED for a recording of one group.
fn of_several_groups(stream: &[u8]) -> Answer {
    let answer = (REFERENCE.check)(stream);
    let groups = stream.windows(4).filter(|unit| **unit == [0, 0, 1, 0xB0]).count();
    let refused = answer.status == 0 && groups < 2;
    Answer {
        status: if refused { 11 } else { answer.status },
        ..answer
    }
}

/// A slip by its name: what it changes in a decoder.
type Slip = (&'static str, fn(&mut Decoder));

const SLIPS: [Slip; 8] = [
    ("zeros before the recording, checked", |d| {
        d.check = |s| (REFERENCE.check)(without_zeros(s))
    }),
    ("zeros before the recording, filed", |d| {
        d.file = |s, r| (REFERENCE.file)(without_zeros(s), r)
    }),
    ("from a picture", |d| d.file = from_a_picture),
    ("one group", |d| d.check = of_several_groups),
    ("first row longer", |d| {
        d.file = |s, r| with_rows(s, r, |i, row| row[2] += u32::from(i == 0))
    }),
    ("offsets from one", |d| d.file = |s, r| with_rows(s, r, |_, row| row[1] += 1)),
    ("another header's row", |d| {
        d.file = |s, r| with_rows(s, r, |i, row| row[0] += u32::from(i > 0 && row[0] == 0xB0))
    }),
    ("refused at the code byte", |d| {
        d.check = |s| {
            let answer = (REFERENCE.check)(s);
            let offset = answer.offset + 3 * usize::from(answer.status == 5);
            Answer { offset, ..answer }
        }
    }),
];

#[test]
fn a_slip_that_all_make_is_found_by_the_rows_of_the_whole() {
    for (name, slip) in SLIPS {
        let mut decoder = REFERENCE;
        slip(&mut decoder);
        let report = alike(&decoder);
        assert!(report.differences > 0, "{}", name);
        assert!(report.to_string().contains("by the rows of the whole"), "{}", name);
    }
}
