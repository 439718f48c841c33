//! Corner cases of filing, bodies, rows and payloads.

use independent::*;

const H: [u8; 15] = [
    0x48, 0x40, 0x0F, 0x00, 0x21, 0xC2, 0x4C, 0xC4, 0xE2, 0x08, 0x00, 0x20, 0x02, 0x00, 0x80,
];
/// Width and height 0, which are recorded and not judged; marker 1; stereo 0.
const DISPLAY: [u8; 6] = [0x20, 0x00, 0x01, 0x00, 0x00, 0x80];
/// The record of that body.
const DISPLAY_RECORD: Display = Display {
    format: 0,
    range: 0,
    colour: None,
    width: 0,
    height: 0,
    stereo: 0,
};
const COPYRIGHT: [u8; 12] = [0x40, 0x00, 0x04, 0x00, 0x00, 0x20, 0x00, 0x00, 0x40, 0x00, 0x00, 0x80];
const PICTURE: (u8, &[u8]) = (0xB3, &[0x80]);
const SLICE: (u8, &[u8]) = (0, &[0x80]);
const END: (u8, &[u8]) = (0xB1, &[]);
const EDIT: (u8, &[u8]) = (0xB7, &[]);

fn write(units: &[(u8, &[u8])]) -> Vec<u8> {
    let mut bytes = Vec::new();
    for (code, body) in units {
        bytes.extend_from_slice(&[0, 0, 1, *code]);
        bytes.extend_from_slice(body);
    }
    bytes
}

/// A refusal that carries no bit.
fn refused<T>(number: u32, place: u64) -> Result<T, Refused> {
    Err(Refused {
        number,
        place,
        bit: None,
    })
}

/// A body's refusal that carries no bit.
fn plain<T>(number: u32) -> Result<T, Fault> {
    Err(Fault { number, bit: None })
}

/// A body's refusal at a bit.
fn at_bit<T>(number: u32, bit: u64) -> Result<T, Fault> {
    Err(Fault { number, bit: Some(bit) })
}

/// Number and unit index of a stream's refusal; (0, units) when filed.
fn outcome(units: &[(u8, &[u8])]) -> (u32, usize) {
    let mut rows = [0; 300];
    match file(&write(units), &mut rows) {
        Ok(count) => (0, count as usize),
        Err(refused) => {
            assert_eq!(refused.bit.is_some(), matches!(refused.number, 7 | 20..=32), "{:?}", refused);
            let before = (0..=units.len()).find(|&n| write(&units[..n]).len() as u64 == refused.place);
            (refused.number, before.unwrap())
        }
    }
}

fn header_with(progressive: u8, height: u32) -> [u8; 15] {
    let mut body = H;
    body[2] = (body[2] & 0x7F) | progressive << 7;
    body[3] = (body[3] & 0xFE) | (height >> 13) as u8;
    body[4] = (height >> 5) as u8;
    body[5] = (body[5] & 0x07) | ((height << 3) as u8);
    assert_eq!(header(&body).unwrap().vertical, height);
    body
}

#[test]
fn grammar() {
    let head: (u8, &[u8]) = (0xB0, &H);
    let b: (u8, &[u8]) = (0xB6, &[1]);
    let user: (u8, &[u8]) = (0xB2, &[]);
    assert_eq!(outcome(&[head, PICTURE, SLICE, END, EDIT]), (0, 5));
    assert_eq!(outcome(&[head, PICTURE, SLICE, EDIT]), (0, 4));
    assert_eq!(outcome(&[head, PICTURE, SLICE, EDIT, END]), (5, 4));
    assert_eq!(outcome(&[head, PICTURE, SLICE, END, END]), (5, 4));
    assert_eq!(outcome(&[head, PICTURE, SLICE, END, head]), (5, 4));
    assert_eq!(outcome(&[head, b, SLICE, END]), (5, 1));
    assert_eq!(
        outcome(&[head, PICTURE, SLICE, b, user, SLICE, head, user, PICTURE, SLICE, END]),
        (0, 11)
    );
    assert_eq!(outcome(&[head, PICTURE, SLICE, user, END]), (5, 3));
    assert_eq!(outcome(&[head, PICTURE, END]), (5, 2));
    assert_eq!(outcome(&[head, PICTURE, b, SLICE, END]), (5, 2));
    assert_eq!(outcome(&[head, SLICE, END]), (5, 1));
    assert_eq!(outcome(&[head, head, PICTURE, SLICE, END]), (5, 1));
    assert_eq!(outcome(&[PICTURE]), (5, 0));
    assert_eq!(outcome(&[END]), (5, 0));
    assert_eq!(outcome(&[head]), (11, 1));
}

#[test]
fn endings_are_empty() {
    let head: (u8, &[u8]) = (0xB0, &H);
    assert_eq!(outcome(&[head, PICTURE, SLICE, (0xB1, &[0])]), (9, 3));
    assert_eq!(outcome(&[head, PICTURE, SLICE, (0xB1, &[0]), EDIT]), (9, 3));
    assert_eq!(outcome(&[head, PICTURE, SLICE, END, (0xB7, &[5])]), (9, 4));
}

#[test]
fn codes() {
    let head: (u8, &[u8]) = (0xB0, &H);
    for code in 0..=255 {
        let unknown = code == 0xB4 || code >= 0xB8;
        assert_eq!(kind(code).is_none(), unknown);
        assert_eq!(outcome(&[head, (code, &[])]).0 == 4, unknown);
    }
    let names = [
        kind(0xAF),
        kind(0xB0),
        kind(0xB1),
        kind(0xB2),
        kind(0xB3),
        kind(0xB5),
        kind(0xB6),
        kind(0xB7),
    ];
    let wanted = [
        "slice",
        "sequence header",
        "sequence end",
        "user data",
        "I picture",
        "extension",
        "P or B picture",
        "edit code",
    ];
    assert_eq!(names, wanted.map(Some));
}

#[test]
fn overlap() {
    let mut rows = [0; 30];
    assert_eq!(file(&[0, 0, 1, 0, 0, 1], &mut rows), refused(3, 0));
    assert_eq!(file(&[0, 0, 1, 0, 0], &mut rows), refused(5, 0));
    assert_eq!(file(&[0, 0, 1], &mut rows), refused(2, 0));
    // 00 00 00 01 after a code byte 00 is a body of nothing, or of zeros, and no overlap.
    assert_eq!(file(&[0, 0, 1, 0, 0, 0, 1, 0xB1], &mut rows), refused(5, 0));
    let stream = [&write(&[(0xB0, &H), PICTURE])[..], &[0, 0, 1, 0, 0, 1, 0xB1]].concat();
    assert_eq!(file(&stream, &mut rows), refused(3, 24));
}

#[test]
fn slices() {
    let b: (u8, &[u8]) = (0xB6, &[1]);
    let good: &[u8] = &[1];
    // Heights with their rows, progressive and interlaced.
    let heights = [
        (1, 1, 2),
        (16, 1, 2),
        (17, 2, 2),
        (32, 2, 2),
        (33, 3, 4),
        (496, 31, 32),
        (497, 32, 32),
        (2784, 174, 174),
    ];
    for (height, progressive, rows) in heights.iter().flat_map(|&(height, p, i)| [(height, 1, p), (height, 0, i)]) {
        let body = header_with(progressive, height);
        let head: (u8, &[u8]) = (0xB0, &body);
        assert_eq!(outcome(&[head, PICTURE, (rows - 1, good), END]), (0, 4));
        assert_eq!(outcome(&[head, PICTURE, (rows, good), END]), (32, 2));
        assert_eq!(outcome(&[head, PICTURE, SLICE, SLICE, END]), (31, 3));
        assert_eq!(outcome(&[head, PICTURE, SLICE, (rows, &[0]), END]), (6, 3));
        assert_eq!(outcome(&[head, PICTURE, SLICE, b, SLICE, END]), (0, 6));
    }
    let tall = header_with(0, 2801);
    let units: [(u8, &[u8]); 6] = [(0xB0, &tall), PICTURE, (0xAF, good), (3, good), (3, good), END];
    assert_eq!(outcome(&units), (0, 6));
    let small = header_with(1, 16);
    let two: [(u8, &[u8]); 7] = [(0xB0, &tall), PICTURE, (9, good), (0xB0, &small), PICTURE, (1, good), END];
    assert_eq!(outcome(&two), (32, 5));
}

/// At 2800 lines all slice codes are in the rows of an interlaced recording.
#[test]
fn slices_of_2800_lines() {
    let good: &[u8] = &[1];
    let (interlaced, progressive) = (header_with(0, 2800), header_with(1, 2800));
    assert_eq!(outcome(&[(0xB0, &interlaced), PICTURE, (0xAF, good), END]), (0, 4));
    assert_eq!(
        outcome(&[(0xB0, &interlaced), PICTURE, (0xAF, good), (0xAF, good), END]),
        (31, 3)
    );
    assert_eq!(outcome(&[(0xB0, &progressive), PICTURE, (0xAE, good), END]), (0, 4));
    assert_eq!(outcome(&[(0xB0, &progressive), PICTURE, (0xAF, good), END]), (32, 2));
}

/// Each group's rows are by its own header.
#[test]
fn slices_of_groups_that_differ() {
    let last: (u8, &[u8]) = (31, &[1]);
    let bodies = [header_with(0, 496), header_with(1, 496)];
    let interlaced: (u8, &[u8]) = (0xB0, &bodies[0]);
    let progressive: (u8, &[u8]) = (0xB0, &bodies[1]);
    assert_eq!(
        outcome(&[progressive, PICTURE, SLICE, interlaced, PICTURE, last, END]),
        (0, 7)
    );
    assert_eq!(
        outcome(&[interlaced, PICTURE, last, progressive, PICTURE, last, END]),
        (32, 5)
    );
    assert_eq!(
        outcome(&[interlaced, PICTURE, last, progressive, PICTURE, SLICE, END]),
        (0, 7)
    );
}

#[test]
fn displays_and_twice() {
    let head: (u8, &[u8]) = (0xB0, &H);
    let display: (u8, &[u8]) = (0xB5, &DISPLAY);
    let short: (u8, &[u8]) = (0xB5, &DISPLAY[..5]);
    let no_marker: (u8, &[u8]) = (0xB5, &[0x20, 0, 0, 0, 0, 0x80]);
    assert_eq!(
        outcome(&[head, display, PICTURE, SLICE, head, display, PICTURE, SLICE, END]),
        (0, 9)
    );
    assert_eq!(outcome(&[head, display, display]), (10, 2));
    assert_eq!(outcome(&[head, display, short]), (6, 2));
    assert_eq!(outcome(&[head, display, no_marker]), (10, 2));
    assert_eq!(outcome(&[head, no_marker]), (7, 1));
    assert_eq!(
        outcome(&[head, display, PICTURE, display, short, no_marker, SLICE, END]),
        (0, 8)
    );
    assert_eq!(outcome(&[head, PICTURE, (0xB5, &[])]), (6, 2));
    assert_eq!(outcome(&[head, PICTURE, (0xB5, &COPYRIGHT[..11])]), (6, 2));
}

#[test]
fn lengths() {
    let units: [(u8, &[u8]); 9] = [
        (0xB0, &[&H[..], &[0, 0]].concat()),
        (0xB5, &[&DISPLAY[..], &[0]].concat()),
        (0xB5, &[0x10, 0, 0, 0]),
        (0xB2, &[0, 0]),
        (0xB3, &[0, 7, 0]),
        (0xB5, &[&DISPLAY[..], &[0, 0]].concat()),
        (0xB5, &[&COPYRIGHT[..], &[0; 4]].concat()),
        (5, &[2, 0, 0, 0]),
        END,
    ];
    let mut rows = [0; 27];
    assert_eq!(file(&write(&units), &mut rows), Ok(9));
    let lengths: Vec<u32> = rows.chunks(3).map(|row| row[2]).collect();
    assert_eq!(lengths, [15, 6, 4, 2, 2, 8, 12, 1, 0]);
}

#[test]
fn header_refusals() {
    let spoilt = |place: usize, value: u8| {
        let mut body = H;
        body[place] = value;
        header(&body)
    };
    assert_eq!(header(&H[..14]), plain(6));
    assert_eq!(spoilt(9, 0x00), at_bit(7, 76)); // first marker
    assert_eq!(spoilt(11, 0x00), at_bit(7, 90)); // second marker
    assert_eq!(spoilt(14, 0xC0), plain(9));
    assert_eq!(spoilt(6, 0x0C), at_bit(23, 47));
    assert_eq!(header(&[&H[..], &[0, 0, 0]].concat()), header(&H));
    assert_eq!(header(&[&H[..], &[0, 4, 0]].concat()), plain(9));
    assert_eq!(header(&[0; 15]), at_bit(20, 17));
    assert_eq!(spoilt(13, 0x07), header(&H)); // reserved bits
}

#[test]
fn extension_refusals() {
    assert_eq!(extension(&DISPLAY, true), Ok(Extension::Display(DISPLAY_RECORD)));
    assert_eq!(extension(&DISPLAY, false), Ok(Extension::Opaque(2)));
    assert_eq!(extension(&[], true), plain(6));
    assert_eq!(extension(&[0x2F], true), plain(6));
    assert_eq!(extension(&[0x2F], false), Ok(Extension::Opaque(2)));
    assert_eq!(extension(&[0x20, 0x80, 0, 0, 0, 0x80, 0, 0], true), plain(6));
    assert_eq!(extension(&[0x20, 0, 1, 0, 3, 0x80], true), at_bit(28, 38));
    assert_eq!(extension(&[0x20, 0, 1, 0, 2, 0], true), plain(9));
}

/// A display extension with these primaries, transfer and matrix.
fn coloured(primaries: u64, transfer: u64, matrix: u64) -> Result<Extension, Fault> {
    let bits = 0x2080_0000_0001_0001 | primaries << 47 | transfer << 39 | matrix << 31;
    extension(&[&bits.to_be_bytes()[..], &[0x80]].concat(), true)
}

#[test]
fn display_colours() {
    let display = Display {
        format: 0,
        range: 0,
        colour: Some([9, 10, 7]),
        width: 0,
        height: 0,
        stereo: 1,
    };
    assert_eq!(coloured(9, 10, 7), Ok(Extension::Display(display)));
    for transfer in 0..256 {
        assert_eq!(
            coloured(0, transfer, 1).is_err(),
            transfer == 0 || transfer == 3 || transfer > 10
        );
    }
    for matrix in 0..256 {
        assert_eq!(coloured(255, 1, matrix).is_err(), matrix == 0 || matrix == 3 || matrix > 7);
    }
}

#[test]
fn copyrights() {
    let read = |flag_owner: [u8; 2], last: u8| {
        let mut body = COPYRIGHT;
        body[0] |= flag_owner[0];
        body[1] |= flag_owner[1];
        body[10] |= last;
        extension(&body, false)
    };
    let record = |flag, owner, number| {
        Ok(Extension::Copyright(Copyright {
            flag,
            owner,
            original: 0,
            number,
        }))
    };
    assert_eq!(read([0, 0], 0), record(0, 0, 0));
    assert_eq!(read([8, 0], 0), record(1, 0, 0));
    assert_eq!(read([8, 8], 5), record(1, 1, 5));
    assert_eq!(read([0, 8], 0), at_bit(29, 5));
    assert_eq!(read([8, 0], 5), at_bit(30, 22));
    assert_eq!(read([0, 0], 5), at_bit(30, 22));
    let most = [0x4F, 0xFC, 0x07, 0xFF, 0xFF, 0xFF, 0xFF, 0xFF, 0xFF, 0xFF, 0xFF, 0x80];
    let all = Copyright {
        flag: 1,
        owner: 255,
        original: 1,
        number: u64::MAX,
    };
    assert_eq!(extension(&most, true), Ok(Extension::Copyright(all)));
    // A marker comes before the rule after the last field, and that before the stuffing.
    assert_eq!(extension(&[0x40, 8, 4, 0, 0, 0x20, 0, 0, 0, 0, 0, 0], true), at_bit(7, 65));
    assert_eq!(extension(&[0x40, 8, 4, 0, 0, 0x20, 0, 0, 0x40, 0, 0, 0], true), at_bit(29, 5));
}

#[test]
fn groups() {
    let head: (u8, &[u8]) = (0xB0, &H);
    let stream = write(&[
        head,
        (0xB5, &DISPLAY),
        PICTURE,
        SLICE,
        head,
        PICTURE,
        (0xB5, &DISPLAY),
        SLICE,
        EDIT,
    ]);
    let h = header(&H).unwrap();
    assert_eq!(group(&stream, 0), Ok((h, Some(DISPLAY_RECORD))));
    assert_eq!(group(&stream, 1), Ok((h, None)));
    assert_eq!(group(&stream, 2), refused(16, 0));
    assert_eq!(group(&stream, u64::MAX), refused(16, 0));
    assert_eq!(group(&stream[..stream.len() - 1], 9), refused(2, stream.len() as u64 - 4));
}

#[test]
fn rows_made_by_hand() {
    let stream = [0; 10];
    assert!(row_exists(&stream, &[0, 0, 6], 0));
    assert_eq!(row_body(&stream, &[9, 2, 4], 0), (6, 4));
    assert!(!row_exists(&stream, &[0, 0, 7], 0));
    assert_eq!(row_body(&stream, &[0, 0, 7], 0), (0, 0));
    assert!(!row_exists(&stream, &[0, u32::MAX, u32::MAX], 0));
    assert!(!row_exists(&stream, &[0, u32::MAX - 3, 4], 0));
    assert!(!row_exists(&stream, &[0, 0, 0, 0, 0], 1));
    for i in [1, u64::MAX, u64::MAX / 3, u64::MAX / 3 + 1] {
        assert!(!row_exists(&stream, &[0, 0, 0], i));
        assert_eq!(row_body(&stream, &[0, 0, 0], i), (0, 0));
    }
}

#[test]
fn start_codes() {
    let stream = [0, 0, 0, 1, 0, 0, 1];
    assert_eq!(next_start_code(&stream, 0), 1);
    assert_eq!(next_start_code(&stream, 1), 1);
    assert_eq!(next_start_code(&stream, 2), 4);
    for from in [5, 6, 7, 8, u64::MAX] {
        assert_eq!(next_start_code(&stream, from), 7);
    }
    assert_eq!(next_start_code(&[], 0), 0);
}

#[test]
fn tables() {
    let rates: Vec<_> = (0..10).map(frame_rate).collect();
    assert_eq!(rates[1..4], [Some((24_000, 1001)), Some((24, 1)), Some((25, 1))]);
    assert_eq!(rates[4..7], [Some((30_000, 1001)), Some((30, 1)), Some((50, 1))]);
    assert_eq!(rates[7..], [Some((60_000, 1001)), Some((60, 1)), None]);
    assert_eq!((rates[0], frame_rate(u32::MAX)), (None, None));
    let ratios: Vec<_> = (0..6).map(display_ratio).collect();
    assert_eq!(ratios, [None, None, Some((4, 3)), Some((16, 9)), Some((221, 100)), None]);
    let mut h = header(&H).unwrap();
    h.horizontal = u32::MAX;
    h.vertical = 0;
    assert_eq!((macroblock_columns(&h), macroblock_rows(&h)), (268_435_456, 0));
    h.vertical = u32::MAX;
    assert_eq!(macroblock_rows(&h), 268_435_456);
}

#[test]
fn names() {
    assert_eq!([name(0), name(1), name(8)], ["FILED", "NO CODE", "VALUE"].map(Some));
    assert_eq!(
        [name(16), name(20), name(21)],
        ["NO ROW", "VALUE of width", "VALUE of height"].map(Some)
    );
    assert_eq!(
        [name(30), name(32)],
        ["VALUE of copyright number", "VALUE of slice row"].map(Some)
    );
    for number in [17, 18, 19, 33, u32::MAX] {
        assert_eq!(name(number), None);
    }
    assert!(NAMES.windows(2).all(|two| two[0].0 < two[1].0));
}

#[test]
fn the_longest_stream() {
    let zeros = vec![0; 16_777_216 - 4 * 5 - 15 - 2];
    let head: (u8, &[u8]) = (0xB0, &H);
    let mut stream = write(&[head, (0xB2, &zeros), PICTURE, SLICE, END]);
    assert_eq!(stream.len(), 16_777_216);
    assert_eq!(file(&stream, &mut [0; 15]), Ok(5));
    assert_eq!(file(&stream, &mut [0; 14]), refused(12, 0));
    stream[0] = 1;
    assert_eq!(file(&stream, &mut []), refused(1, 0));
    stream.push(0);
    assert_eq!(file(&stream, &mut []), refused(13, 0));
    assert_eq!(group(&stream, 0), refused(13, 0));
}

#[test]
fn escape_bits() {
    let mut output = [9; 8];
    assert_eq!(unescape(&[], &mut []), Ok(0));
    assert_eq!(unescape(&[0, 0, 2], &mut output[..2]), Err(12));
    assert_eq!(output, [9; 8]);
    assert_eq!(unescape(&[0, 2, 0, 0, 2, 0, 0, 2], &mut output), Ok(60));
    assert_eq!(output, [0, 2, 0, 0, 0, 0, 0, 0]);
    // After the first removal the output holds 00 00 02 where the raw bytes do not.
    assert_eq!(unescape(&[0, 0, 2, 0, 0x08, 0xFF], &mut output), Ok(46));
    assert_eq!(output[..6], [0, 0, 0, 0, 0x23, 0xFC]);
    let long = vec![0; 65_537];
    assert_eq!(unescape(&long, &mut []), Err(13));
    assert_eq!(unescape(&long[1..], &mut []), Err(12));
}

#[test]
fn golomb_limits() {
    let refused = |number, missing| Err(Unread { number, missing });
    let most = [0, 0, 0, 1, 0xFF, 0xFF, 0xFF, 0xFE];
    assert_eq!(golomb(&most, 63, 0), Ok((u32::MAX - 1, 63)));
    assert_eq!(signed_golomb(&most, 63, 0), Ok((-i32::MAX, 63)));
    assert_eq!(
        signed_golomb(&[0, 0, 0, 1, 0xFF, 0xFF, 0xFF, 0xFC], 63, 0),
        Ok((i32::MAX, 63))
    );
    assert_eq!(golomb(&most, 62, 0), refused(14, Some(1)));
    assert_eq!(golomb(&[0; 4], 32, 0), refused(8, None));
    assert_eq!(golomb(&[0; 4], 31, 0), refused(14, Some(1)));
    assert_eq!(golomb(&[0; 4], u64::MAX, 1), refused(14, Some(1)));
    assert_eq!(golomb(&[0xFF], u64::MAX, 7), Ok((0, 8)));
    assert_eq!(golomb(&[0xFF], u64::MAX, 8), refused(14, Some(1)));
    assert_eq!(golomb(&[0xFF], u64::MAX, u64::MAX), refused(14, Some(1)));
    assert_eq!(golomb(&[0xFF], 0, 0), refused(14, Some(1)));
    assert_eq!(golomb(&vec![0xFF; 65_537], 1, 0), refused(13, None));
    assert_eq!(golomb(&vec![0xFF; 65_536], u64::MAX, 524_287), Ok((0, 524_288)));
}
