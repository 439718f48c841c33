//! The document's "Table of proved examples", line by line.

use independent::*;

const H: [u8; 15] = [
    0x48, 0x40, 0x0F, 0x00, 0x21, 0xC2, 0x4C, 0xC4, 0xE2, 0x08, 0x00, 0x20, 0x02, 0x00, 0x80,
];

/// Example 1 with this header and this slice code.
fn recording(header: &[u8], slice: u8) -> Vec<u8> {
    let mut stream = vec![0, 0, 1, 0xB0];
    stream.extend_from_slice(header);
    stream.extend_from_slice(&[0, 0, 1, 0xB3, 0x80, 0, 0, 1, slice, 0x80, 0, 0, 1, 0xB1]);
    stream
}

/// A refusal that carries no bit.
fn refused(number: u32, place: u64) -> Result<u64, Refused> {
    Err(Refused {
        number,
        place,
        bit: None,
    })
}

/// Example 7 as document 02, E1 has it.
const SLICE_ROW_REFUSED: Refused = Refused {
    number: 32,
    place: 24,
    bit: Some(0),
};

#[test]
fn header_h() {
    let h = header(&H).unwrap();
    assert_eq!((h.horizontal, h.vertical, h.bitrate), (1920, 1080, 20_000));
    assert_eq!((macroblock_columns(&h), macroblock_rows(&h)), (120, 68));
    assert_eq!(
        (h.profile, h.level, h.progressive, h.chroma, h.precision),
        (0x48, 0x40, 0, 1, 1)
    );
    assert_eq!((h.aspect, h.rate, h.delay), (3, 3, 0));
}

#[test]
fn example_1() {
    let mut rows = [7; 14];
    assert_eq!(file(&recording(&H, 0), &mut rows), Ok(4));
    assert_eq!(rows, [176, 0, 15, 179, 19, 1, 0, 24, 1, 177, 29, 0, 7, 7]);
}

#[test]
fn examples_2_to_5() {
    let stream = recording(&H, 0);
    let mut rows = [7; 11];
    assert_eq!(file(&stream, &mut rows), refused(12, 0));
    assert_eq!(file(&stream[..29], &mut rows), refused(11, 29));
    assert_eq!(file(&stream[..stream.len() - 1], &mut rows), refused(2, 29));
    assert_eq!(file(&[], &mut rows), refused(1, 0));
    assert_eq!(rows, [7; 11]);
}

#[test]
fn examples_without_rows() {
    let stream = recording(&H, 0);
    assert_eq!(check(&stream), Ok(4));
    assert_eq!(check(&stream[..29]), refused(11, 29));
    assert_eq!(check(&stream[..stream.len() - 1]), refused(2, 29));
    assert_eq!(check(&[]), refused(1, 0));
    assert_eq!(check(&recording(&H, 0x44)), Err(SLICE_ROW_REFUSED));
}

#[test]
fn example_6() {
    let mut body = H;
    body[14] = 0;
    assert_eq!(header(&body), Err(Fault { number: 9, bit: None }));
    assert_eq!(file(&recording(&body, 0), &mut [0; 12]), refused(9, 0));
}

#[test]
fn example_7() {
    assert_eq!(file(&recording(&H, 0x44), &mut [0; 12]), Err(SLICE_ROW_REFUSED));
    assert_eq!(group(&recording(&H, 0x44), 0), Err(SLICE_ROW_REFUSED));
    assert_eq!(file(&recording(&H, 0x43), &mut [0; 12]), Ok(4));
}

#[test]
fn example_8() {
    let mut output = [9; 5];
    assert_eq!(unescape(&[0, 0, 2, 0xC0], &mut output), Ok(30));
    assert_eq!(output, [0, 0, 3, 0, 9]);
}

#[test]
fn example_9() {
    assert_eq!(golomb(&[0b1000_0000], 1, 0), Ok((0, 1)));
    assert_eq!(golomb(&[0b0100_0000], 3, 0), Ok((1, 3)));
    assert_eq!(signed_golomb(&[0b0100_0000], 3, 0), Ok((1, 3)));
    assert_eq!(golomb(&[0b0110_0000], 3, 0), Ok((2, 3)));
    assert_eq!(signed_golomb(&[0b0110_0000], 3, 0), Ok((-1, 3)));
}

#[test]
fn example_10() {
    let payload = [0x80, 0x40, 0x00];
    let s = start(&payload, 24).unwrap();
    let after = State {
        rs: 0,
        rt: 254,
        vs: 8,
        vt: 0,
        place: 18,
    };
    assert_eq!(
        decode(&payload, 24, s, fresh()),
        Ok((
            1,
            after,
            Context {
                mps: 1,
                lg: 827,
                cycno: 1
            }
        ))
    );
}

#[test]
fn example_11() {
    let payload = [0x40, 0x00];
    let s = start(&payload, 16).unwrap();
    let (first, s, c) = decode(&payload, 16, s, fresh()).unwrap();
    let (second, s, c) = decode(&payload, 16, s, c).unwrap();
    let (third, s, c) = decode(&payload, 16, s, c).unwrap();
    assert_eq!((first, second, third), (0, 0, 1));
    assert_eq!(
        s,
        State {
            rs: 0,
            rt: 188,
            vs: 0,
            vt: 28,
            place: 12
        }
    );
    assert_eq!(
        c,
        Context {
            mps: 0,
            lg: 927,
            cycno: 2
        }
    );
}

#[test]
fn example_12() {
    let payload = [0x80, 0x00];
    let s = start(&payload, 16).unwrap();
    assert_eq!(
        s,
        State {
            rs: 0,
            rt: 255,
            vs: 0,
            vt: 0,
            place: 9
        }
    );
    // Document 02, E13: one bit is missing, since bins want bit by bit.
    let out = Unread {
        number: 14,
        missing: Some(1),
    };
    assert_eq!(decode(&payload, 16, s, fresh()), Err(out));
}
