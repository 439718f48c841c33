//! Recordings of several groups, and what a refusal leaves as it was.

use avsplus::{
    check, file, file_into, group, next_start_code, row_body, row_exists, Colour, Context, Extension, JudgedField, Kind,
    Payload, Reason, Scope, State, Unit,
};

const HEADER: [u8; 15] = [
    0x48, 0x40, 0x0F, 0x00, 0x21, 0xC2, 0x4C, 0xC4, 0xE2, 0x08, 0x00, 0x20, 0x02, 0x00, 0x80,
];
const DISPLAY_WITH_COLOUR: [u8; 9] = [0x22, 0x80, 0x80, 0x80, 0x8F, 0x01, 0x10, 0xE0, 0x80];
const DISPLAY: [u8; 6] = [0x22, 0x0F, 0x01, 0x10, 0xE0, 0x80];
const COPYRIGHT: [u8; 12] = [0x48, 0x3C, 0x04, 0x04, 0x8D, 0x2A, 0xCF, 0x13, 0x6B, 0xCD, 0xEF, 0x80];

fn unit(code: u8, body: &[u8]) -> Vec<u8> {
    [&[0, 0, 1, code], body].concat()
}

fn picture(code: u8, extensions: &[Vec<u8>]) -> Vec<u8> {
    [unit(code, &[0x80]), extensions.concat(), unit(0x00, &[0x80, 0x00])].concat()
}

/// Three groups: a display extension with colour, none, and one without colour.
fn three_groups() -> Vec<u8> {
    let coloured = [
        unit(0xB2, b"user\0"),
        unit(0xB5, &COPYRIGHT),
        unit(0xB5, &DISPLAY_WITH_COLOUR),
    ]
    .concat();
    // After a picture header number 2 is opaque.
    let pictures = [picture(0xB3, &[]), picture(0xB6, &[unit(0xB5, &DISPLAY)])].concat();
    let first = [unit(0xB0, &HEADER), coloured, pictures.clone()].concat();
    let second = [unit(0xB0, &HEADER), pictures.clone()].concat();
    let third = [unit(0xB0, &HEADER), unit(0xB5, &DISPLAY), pictures].concat();
    [first, second, third, unit(0xB1, &[]), unit(0xB7, &[])].concat()
}

#[test]
fn groups_by_rows_are_groups_by_the_library() {
    let stream = three_groups();
    let recording = file(&stream).unwrap();
    assert_eq!(recording.groups().len(), 3);
    let groups: Vec<_> = recording.groups().map(Result::unwrap).collect();
    let mut backwards: Vec<_> = recording.groups().rev().map(Result::unwrap).collect();
    backwards.reverse();
    assert_eq!(backwards, groups);
    for (g, found) in groups.iter().enumerate() {
        assert_eq!(recording.group(g).as_ref(), Ok(found));
        assert_eq!(group(&stream, g).as_ref(), Ok(found));
    }
    assert_eq!(
        groups[0].display.unwrap().colour,
        Some(Colour {
            primaries: 1,
            transfer: 1,
            matrix: 1
        })
    );
    assert_eq!(groups[1].display, None);
    assert_eq!(groups[2].display.unwrap().colour, None);
    assert_eq!(recording.group(3).unwrap_err().reason, Reason::NoRow);
    assert_eq!(group(&stream, 3).unwrap_err().reason, Reason::NoRow);
}

#[test]
fn groups_agree_whatever_byte_is_changed() {
    let good = three_groups();
    for place in 0..good.len() {
        for change in [0x01, 0x10, 0x80, 0xFF] {
            let mut stream = good.clone();
            stream[place] ^= change;
            let first = group(&stream, 0);
            match file(&stream) {
                Ok(recording) => {
                    assert_eq!(check(&stream), Ok(recording.totals()));
                    assert_eq!(recording.totals().units, recording.units().len());
                    assert_eq!(recording.group(0), first);
                }
                Err(refused) => assert_eq!((check(&stream), first), (Err(refused), Err(refused))),
            }
        }
    }
}

/// A group of 496 lines, progressive or not, with a slice in this row.
fn of_496_lines(progressive: bool, row: u8) -> Vec<u8> {
    let mut header = HEADER;
    header[2] |= u8::from(progressive) << 7;
    header[4..6].copy_from_slice(&[0x0F, 0x82]);
    [unit(0xB0, &header), unit(0xB3, &[0x80]), unit(row, &[0x80])].concat()
}

/// Each group has the rows of its own header, and its slices are below them.
#[test]
fn macroblock_rows_by_group() {
    let stream = |groups: &[Vec<u8>]| [groups.concat(), unit(0xB1, &[])].concat();
    let good = stream(&[of_496_lines(true, 30), of_496_lines(false, 31), of_496_lines(true, 30)]);
    let recording = file(&good).unwrap();
    let header = |g| recording.group(g).unwrap().header;
    let rows: Vec<_> = (0..3).map(|g| (header(g).progressive, header(g).macroblock_rows)).collect();
    assert_eq!(rows, [(true, 31), (false, 32), (true, 31)]);
    for groups in [
        [of_496_lines(false, 31), of_496_lines(true, 31)],
        [of_496_lines(true, 30), of_496_lines(false, 32)],
    ] {
        let refused = check(&stream(&groups)).unwrap_err();
        let reason = Reason::ValueOf {
            field: JudgedField::SliceRow,
            bit: 0,
        };
        assert_eq!((refused.reason, refused.offset), (reason, Some(53)));
    }
}

/// A refusal of a stream has the offset of the unit and the bit of its body; that of the body alone has the bit alone.
#[test]
fn refusals_with_their_bits() {
    let extended = |body: &[u8]| [unit(0xB0, &HEADER), unit(0xB5, body), picture(0xB3, &[]), unit(0xB1, &[])].concat();
    let sliced = |a, b| [unit(0xB0, &HEADER), unit(0xB3, &[0x80]), unit(a, &[0x80]), unit(b, &[0x80])].concat();
    let mut unmarked = DISPLAY;
    unmarked[2] &= !0x01;
    let mut stereo = DISPLAY_WITH_COLOUR;
    stereo[7] |= 0x03;
    for (stream, shown) in [
        (extended(&unmarked), "MARKER (7) at byte 19, bit 23 of the body"),
        (extended(&stereo), "VALUE of stereo (28) at byte 19, bit 62 of the body"),
        (sliced(5, 5), "VALUE of slice order (31) at byte 29, bit 0 of the body"),
        (sliced(0x44, 0x43), "VALUE of slice row (32) at byte 24, bit 0 of the body"),
        (sliced(0x43, 0x44), "VALUE of slice row (32) at byte 29, bit 0 of the body"),
    ] {
        let refused = file(&stream).unwrap_err();
        assert_eq!(refused.to_string(), shown);
        assert_eq!((check(&stream), group(&stream, 0)), (Err(refused), Err(refused)));
    }
    for (body, shown) in [
        (&unmarked[..], "MARKER (7) at bit 23 of the body"),
        (&stereo, "VALUE of stereo (28) at bit 62 of the body"),
    ] {
        let refused = avsplus::extension(body, Scope::Head).unwrap_err();
        assert_eq!((refused.to_string().as_str(), refused.offset), (shown, None));
    }
}

#[test]
fn bodies_outlive_their_recording() {
    let stream = three_groups();
    let units: Vec<Unit<'_>> = file(&stream).unwrap().units().collect();
    assert_eq!(units.len(), 24);
    assert_eq!(units[1].body, b"user\0");
    for unit in units {
        assert_eq!(&stream[unit.offset..unit.offset + 3], [0, 0, 1]);
        assert_eq!(stream[unit.offset + 3], unit.code);
        assert_eq!(unit.body.as_ptr(), stream[unit.offset + 4..].as_ptr());
        assert!(unit.kind != Kind::Slice || unit.body == [0x80]);
    }
}

#[test]
fn a_refusal_leaves_rows_as_they_were() {
    let stream = three_groups();
    let mut rows = [7; 100];
    assert_eq!(file_into(&stream, &mut rows[..71]).unwrap_err().reason, Reason::Full);
    assert_eq!(
        file_into(&stream[..stream.len() - 8], &mut rows).unwrap_err().reason,
        Reason::Unended
    );
    assert_eq!(rows, [7; 100]);
    assert_eq!(file_into(&stream, &mut rows).unwrap().units, 24);
    assert_eq!(&rows[72..], [7; 28]);
    assert_eq!(&rows[..72], file(&stream).unwrap().rows());
}

#[test]
fn rows_that_point_outside_do_not_exist() {
    let stream = unit(0xB2, b"ab");
    for row in [
        [0xB2, 0, 3],
        [0xB2, 1, 2],
        [0xB2, u32::MAX, 0],
        [0xB2, 0, u32::MAX],
        [0xB2, u32::MAX, u32::MAX],
    ] {
        assert_eq!(row_exists(&stream, &row, 0), Ok(false));
        assert_eq!(row_body(&stream, &row, 0).unwrap_err().reason, Reason::NoRow);
    }
    let row = [0xB2, 0, 2];
    for (stream, rows, i) in [
        (&stream[..], &row[..2], 0),
        (&[], &[], 0),
        (&stream, &row, 1),
        (&stream, &row, usize::MAX),
    ] {
        assert_eq!(row_exists(stream, rows, i), Ok(false));
    }
    assert_eq!(row_body(&stream, &[0xB2, 2, 0], 0), Ok(&stream[6..]));
}

#[test]
fn streams_over_the_limit() {
    let stream = vec![0; avsplus::LONGEST_STREAM + 1];
    assert_eq!(file(&stream).unwrap_err().reason, Reason::TooLong);
    assert_eq!(file(&stream[1..]).unwrap_err().reason, Reason::NoCode);
    assert_eq!(group(&stream, 0).unwrap_err().reason, Reason::TooLong);
    assert_eq!(check(&stream).unwrap_err().reason, Reason::TooLong);
}

#[test]
fn a_copyright_extension() {
    for scope in [Scope::Head, Scope::Picture] {
        match avsplus::extension(&COPYRIGHT, scope) {
            Ok(Extension::Copyright(copyright)) => {
                assert!(copyright.flag && copyright.original);
                assert_eq!((copyright.owner, copyright.number), (7, 0x0123_4567_89AB_CDEF));
            }
            other => panic!("{:?}", other),
        }
    }
    assert_eq!(
        avsplus::extension(&COPYRIGHT[..11], Scope::Head).unwrap_err().reason,
        Reason::Short
    );
    assert_eq!(avsplus::extension(&[0xB5], Scope::Head), Ok(Extension::Opaque(11)));
}

#[test]
fn a_bad_state_stays_as_it_was() {
    let payload = Payload::whole(&[0x40, 0x00]);
    let bad = State {
        rs: 1,
        rt: 0,
        vs: 0,
        vt: 0,
        place: 0,
    };
    let (mut state, mut context) = (bad, Context::FRESH);
    assert_eq!(payload.decode(&mut state, &mut context).unwrap_err().reason, Reason::BadState);
    assert_eq!((state, context), (bad, Context::FRESH));
    let mut state = payload.start().unwrap();
    let mut context = Context { lg: 3, ..Context::FRESH };
    assert_eq!(payload.decode(&mut state, &mut context).unwrap_err().reason, Reason::BadState);
    assert_eq!((state, context.lg), (payload.start().unwrap(), 3));
}

#[test]
fn the_bit_count_travels_with_the_bytes() {
    // A number at bit 8 wants one bit more than there are; what fills the last byte would make it up.
    let raw = [0xFF, 0x00, 0x00, 0x02, 0x40, 0x01, 0x01];
    let payload = avsplus::remove_escapes(&raw).unwrap();
    assert_eq!((payload.bits(), payload.bytes().len()), (54, 7));
    assert_eq!(
        payload.unsigned_golomb(8).unwrap_err().reason,
        Reason::PayloadOut { missing: 1 }
    );
    assert!(Payload::whole(payload.bytes()).unsigned_golomb(8).is_ok());
    let owned = Payload::first_bits(payload.bytes(), 54).into_owned();
    assert_eq!((owned.bits(), owned.bytes()), (54, payload.bytes()));
    assert_eq!(format!("{:?}", owned), "Payload { bytes: 7, bits: 54 }");
    let mut output = [0xAA; 9];
    let lent = avsplus::remove_escapes_into(&raw, &mut output).unwrap();
    assert_eq!((lent.bits(), lent.bytes()), (54, payload.bytes()));
    assert_eq!(lent.signed_golomb(8).unwrap_err().reason, Reason::PayloadOut { missing: 1 });
    assert_eq!(output[7..], [0xAA; 2]);
}

/// Why there is no number at a place, unsigned or signed.
fn no_number(payload: &Payload, place: usize) -> Reason {
    let reason = payload.unsigned_golomb(place).unwrap_err().reason;
    assert_eq!(payload.signed_golomb(place).unwrap_err().reason, reason);
    reason
}

/// Zeros and the 1 are read bit by bit, and what follows at once, whatever the zeros; all bits before the place are 1.
#[test]
fn missing_bits_of_numbers() {
    for (before, zeros) in [0, 5, 8]
        .into_iter()
        .flat_map(|before| (0..32).map(move |zeros| (before, zeros)))
    {
        let one = before + zeros;
        let mut bytes = [0; 9];
        for bit in (0..before).chain([one]) {
            bytes[bit / 8] |= 0x80 >> (bit % 8);
        }
        for cut in before..=one {
            let reason = no_number(&Payload::first_bits(&bytes, cut), before);
            assert_eq!(reason, Reason::PayloadOut { missing: 1 }, "{} {}", zeros, cut);
        }
        for missing in 1..=zeros {
            let reason = no_number(&Payload::first_bits(&bytes, one + 1 + zeros - missing), before);
            let missing = missing as u32;
            assert_eq!(reason, Reason::PayloadOut { missing }, "{} {}", zeros, missing);
        }
        let whole = Payload::first_bits(&bytes, one + 1 + zeros);
        assert_eq!(whole.unsigned_golomb(before), Ok(((1 << zeros) - 1, one + 1 + zeros)));
    }
    assert_eq!(no_number(&Payload::first_bits(&[0; 4], 32), 0), Reason::Value);
    for place in [8, 9, usize::MAX] {
        assert_eq!(no_number(&Payload::whole(&[0xFF]), place), Reason::PayloadOut { missing: 1 });
    }
}

#[test]
fn missing_bits_of_bins() {
    for (bits, missing) in (0..40).map(|bits| (bits, 9_u32.saturating_sub(bits as u32).max(1))) {
        let refused = Payload::first_bits(&[0; 5], bits).start().unwrap_err();
        assert_eq!(refused.reason, Reason::PayloadOut { missing }, "{}", bits);
    }
    // At the end, with rT below every lg / 4, each bin wants a bit.
    let at_end = avsplus::State {
        rs: 0,
        rt: 0,
        vs: 0,
        vt: 255,
        place: 16,
    };
    let payload = Payload::whole(&[0; 2]);
    let (mut state, mut first, mut second) = (at_end, Context::FRESH, Context::FRESH);
    let refused = [
        payload.decode(&mut state, &mut first),
        payload.decode_pair(&mut state, &mut first, &mut second),
        payload.bypass(&mut state),
        payload.stuffing(&mut state),
    ];
    assert_eq!(refused, [Err(Reason::PayloadOut { missing: 1 }.into()); 4]);
    assert_eq!((state, first, second), (at_end, Context::FRESH, Context::FRESH));
}

#[test]
fn payloads_over_the_limit() {
    let raw = vec![1; avsplus::LONGEST_PAYLOAD + 1];
    assert_eq!(avsplus::remove_escapes(&raw[1..]).unwrap().bits(), 524_288);
    assert_eq!(avsplus::remove_escapes(&raw).unwrap_err().reason, Reason::TooLong);
    // TOO LONG looks at the bytes, whatever the bit count.
    assert_eq!(Payload::first_bits(&raw, 8).start().unwrap_err().reason, Reason::TooLong);
}

#[test]
fn units_know_where_they_stand() {
    let stream = three_groups();
    let recording = file(&stream).unwrap();
    assert_eq!(recording.units().len(), 24);
    let units: Vec<Unit<'_>> = recording.units().collect();
    let mut backwards: Vec<Unit<'_>> = recording.units().rev().collect();
    backwards.reverse();
    assert_eq!(backwards, units);
    for (i, unit) in units.iter().enumerate() {
        assert_eq!((unit.index, recording.unit(i)), (i, Ok(*unit)));
    }
    assert_eq!(recording.unit(24).unwrap_err().reason, Reason::NoRow);
    // Each is found at once, from both ends.
    assert_eq!((recording.units().count(), recording.groups().count()), (24, 3));
    assert_eq!(recording.units().last(), recording.unit(23).ok());
    assert_eq!(recording.units().nth(7).as_ref(), units.get(7));
    assert_eq!(recording.units().nth_back(7).as_ref(), units.get(16));
    assert_eq!(recording.groups().nth_back(2), Some(recording.group(0)));
    assert_eq!((recording.units().nth(24), recording.groups().nth(3)), (None, None));
    assert!((&recording).into_iter().eq(recording.units()));
    // Headers with what is in their heads, and the two pictures of each group.
    let heads = [(0, 0..4), (1, 9..10), (2, 15..17)];
    for unit in &units {
        let (g, head) = heads.iter().rev().find(|(_, head)| head.start <= unit.index).unwrap();
        assert_eq!(unit.group, if unit.index < 22 { Some(*g) } else { None });
        assert_eq!(unit.in_head, head.contains(&unit.index), "{:?}", unit);
    }
    for (g, count) in [(0, 9), (1, 6), (2, 7), (3, 0), (usize::MAX, 0)] {
        let of_group: Vec<Unit<'_>> = units.iter().copied().filter(|unit| unit.group == Some(g)).collect();
        assert_eq!(recording.units_of(g).len(), count);
        assert_eq!(recording.units_of(g).collect::<Vec<_>>(), of_group);
    }
}

#[test]
fn units_know_their_extension_and_their_zeros() {
    let stream = three_groups();
    let recording = file(&stream).unwrap();
    let shown = |unit: Unit<'_>| unit.extension().unwrap().map(|extension| extension.to_string());
    let extensions: Vec<(usize, String)> = recording.units().filter_map(|u| shown(u).map(|e| (u.index, e))).collect();
    let expected = [
        (2, "copyright extension"),
        (3, "display extension"),
        (7, "extension 2, opaque"),
        (13, "extension 2, opaque"),
        (16, "display extension"),
        (20, "extension 2, opaque"),
    ];
    assert_eq!(extensions, expected.map(|(i, name)| (i, name.to_string())));
    for unit in recording.units() {
        // Only slices have a zero byte after them here; that of user data is its own.
        assert_eq!(unit.trailing_zeros, usize::from(unit.kind == Kind::Slice));
        let end = unit.offset + 4 + unit.body.len() + unit.trailing_zeros;
        assert!(end == stream.len() || stream[end..].starts_with(&[0, 0, 1]));
    }
}

#[test]
fn empty_inputs() {
    assert_eq!(file(&[]).unwrap_err().reason, Reason::NoCode);
    assert_eq!(avsplus::sequence_header(&[]).unwrap_err().reason, Reason::Short);
    let nothing = avsplus::remove_escapes(&[]).unwrap();
    assert_eq!((nothing.bits(), nothing.bytes().len()), (0, 0));
    assert_eq!(no_number(&nothing, 0), Reason::PayloadOut { missing: 1 });
    assert_eq!(nothing.start().unwrap_err().reason, Reason::PayloadOut { missing: 9 });
    assert_eq!((next_start_code(&[], 0), next_start_code(&[0, 0, 1], 9)), (Ok(0), Ok(3)));
}
