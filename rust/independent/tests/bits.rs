//! Document 02, E1, "Tell me which bit": number and bit of every field and marker that is judged, in bodies and in streams.

use independent::*;

const HEADER: [u8; 15] = [
    0x48, 0x40, 0x0F, 0x00, 0x21, 0xC2, 0x4C, 0xC4, 0xE2, 0x08, 0x00, 0x20, 0x02, 0x00, 0x80,
];
const PLAIN: [u8; 6] = [0x2B, 0x05, 0xA1, 0x09, 0x01, 0x80];
const COLOURED: [u8; 9] = [0x2B, 0x84, 0x85, 0x03, 0x85, 0xA1, 0x09, 0x01, 0x80];
/// Flag 1, owner 17 and a number of which each part is not 0.
const COPYRIGHT: [u8; 12] = [0x48, 0x8C, 0x04, 0x80, 0x00, 0x60, 0x00, 0x01, 0x40, 0x00, 0x03, 0x80];

/// A field or marker: the number it is refused with, its first bit and width, and which of its values are allowed.
struct Judged(u32, u64, u64, fn(u64) -> bool);

const IN_HEADER: [Judged; 8] = [
    Judged(20, 17, 14, |width| width != 0),
    Judged(21, 31, 14, |height| height != 0),
    Judged(22, 45, 2, |chroma| chroma == 1 || chroma == 2),
    Judged(23, 47, 3, |precision| precision == 1),
    Judged(24, 50, 4, |aspect| aspect != 0 && aspect < 5),
    Judged(25, 54, 4, |rate| rate != 0 && rate < 9),
    Judged(7, 76, 1, |marker| marker == 1),
    Judged(7, 90, 1, |marker| marker == 1),
];
const IN_PLAIN: [Judged; 2] = [Judged(7, 23, 1, |marker| marker == 1), Judged(28, 38, 2, |stereo| stereo < 3)];
const IN_COLOURED: [Judged; 4] = [
    Judged(26, 17, 8, |transfer| matches!(transfer, 1 | 2 | 4..=10)),
    Judged(27, 25, 8, |matrix| matches!(matrix, 1 | 2 | 4..=7)),
    Judged(7, 47, 1, |marker| marker == 1),
    Judged(28, 62, 2, |stereo| stereo < 3),
];
const IN_COPYRIGHT: [Judged; 3] = [
    Judged(7, 21, 1, |marker| marker == 1),
    Judged(7, 42, 1, |marker| marker == 1),
    Judged(7, 65, 1, |marker| marker == 1),
];

/// Good bodies with their code and all that is judged in them field by field.
const LAYOUTS: [(u8, &[u8], &[Judged]); 4] = [
    (0xB0, &HEADER, &IN_HEADER),
    (0xB5, &PLAIN, &IN_PLAIN),
    (0xB5, &COLOURED, &IN_COLOURED),
    (0xB5, &COPYRIGHT, &IN_COPYRIGHT),
];

/// The body with some bits from `first` on changed to a value.
fn with(body: &[u8], first: u64, width: u64, value: u64) -> Vec<u8> {
    let mut changed = body.to_vec();
    for i in 0..width {
        let (byte, shift) = ((first + i) / 8, 7 - (first + i) % 8);
        let one = (value >> (width - 1 - i)) as u8 & 1;
        changed[byte as usize] = changed[byte as usize] & !(1 << shift) | one << shift;
    }
    changed
}

/// A value of the field that is not allowed.
fn ruled_out(judged: &Judged) -> u64 {
    (0..1 << judged.2).find(|&value| !(judged.3)(value)).unwrap()
}

fn fault_of(code: u8, body: &[u8]) -> Option<Fault> {
    match code {
        0xB0 => header(body).err(),
        _ => extension(body, true).err(),
    }
}

fn at_bit(number: u32, bit: u64) -> Option<Fault> {
    Some(Fault { number, bit: Some(bit) })
}

fn without_bit(number: u32) -> Option<Fault> {
    Some(Fault { number, bit: None })
}

#[test]
fn every_value_of_every_field() {
    for (code, good, fields) in LAYOUTS {
        assert_eq!(fault_of(code, good), None);
        for &Judged(number, first, width, allowed) in fields {
            for value in 0..1 << width {
                let expected = if allowed(value) { None } else { at_bit(number, first) };
                assert_eq!(fault_of(code, &with(good, first, width, value)), expected);
            }
        }
    }
}

/// Of two fields the first is refused, and each before the stuffing.
#[test]
fn the_first_field_decides() {
    for (code, good, fields) in LAYOUTS {
        for (i, field) in fields.iter().enumerate() {
            let spoilt = with(good, field.1, field.2, ruled_out(field));
            for later in &fields[i..] {
                let body = with(&spoilt, later.1, later.2, ruled_out(later));
                assert_eq!(fault_of(code, &body), at_bit(field.0, field.1));
            }
            let stuffing = 8 * good.len() as u64 - 8;
            assert_eq!(fault_of(code, &with(&spoilt, stuffing, 1, 0)), at_bit(field.0, field.1));
        }
    }
}

/// A copyright extension with this flag and owner, and only this bit of the number's three parts a 1.
fn rights(flag: u64, owner: u64, number_bit: Option<u64>) -> Vec<u8> {
    let parts = [(22, 20), (43, 22), (66, 22)];
    let mut body = with(&with(&COPYRIGHT, 4, 1, flag), 5, 8, owner);
    for (first, width) in parts {
        body = with(&body, first, width, 0);
    }
    match number_bit {
        Some(bit) => with(&body, bit, 1, 1),
        None => body,
    }
}

#[test]
fn copyright_owner_and_number() {
    let of_number = (22..42).chain(43..65).chain(66..88).map(Some);
    for number_bit in of_number.chain([None]) {
        for (flag, owner) in (0..256).flat_map(|owner| [(0, owner), (1, owner)]) {
            let expected = match (flag, owner, number_bit) {
                (0, 1..=255, _) => at_bit(29, 5),
                (_, 0, Some(_)) => at_bit(30, 22),
                _ => None,
            };
            let body = rights(flag, owner, number_bit);
            assert_eq!(extension(&body, true).err(), expected);
            assert_eq!(extension(&body, false).err(), expected);
        }
    }
}

/// All markers come before either rule, and both rules before the stuffing.
#[test]
fn copyright_rules_come_after_the_fields() {
    for (number, bit, body) in [(29, 5, rights(0, 9, Some(22))), (30, 22, rights(1, 0, Some(70)))] {
        assert_eq!(extension(&body, true).err(), at_bit(number, bit));
        for marker in [21, 42, 65] {
            assert_eq!(extension(&with(&body, marker, 1, 0), true).err(), at_bit(7, marker));
        }
        assert_eq!(extension(&with(&body, 88, 1, 0), true).err(), at_bit(number, bit));
    }
    let good = rights(1, 0, None);
    assert_eq!(extension(&with(&good, 88, 1, 0), true).err(), without_bit(9));
}

/// After a picture header number 2 is opaque, so that it has no bit either.
#[test]
fn displays_after_a_picture_have_no_bit() {
    for (good, fields) in [(&PLAIN[..], &IN_PLAIN[..]), (&COLOURED, &IN_COLOURED)] {
        for field in fields {
            let body = with(good, field.1, field.2, ruled_out(field));
            assert_eq!(extension(&body, false), Ok(Extension::Opaque(2)));
        }
    }
}

type Unit<'a> = (u8, &'a [u8]);

const HEAD: Unit = (0xB0, &HEADER);
const PICTURE: Unit = (0xB3, &[0x80]);
const OTHER: Unit = (0xB6, &[0x80]);
const END: Unit = (0xB1, &[]);

fn slice(code: u8) -> Unit<'static> {
    (code, &[0x80])
}

fn write(units: &[Unit]) -> Vec<u8> {
    let unit = |&(code, body): &Unit| [&[0, 0, 1, code], body].concat();
    units.iter().flat_map(unit).collect()
}

/// The stream of some units and a sequence end is refused for its unit `i`, by each question alike; in a second group too.
fn refused_in_streams(units: &[Unit], i: usize, number: u32, bit: u64) {
    for before in [&[][..], &[HEAD, PICTURE, slice(67)]] {
        let stream = write(&[before, units, &[END]].concat());
        let refused = Refused {
            number,
            place: write(&[before, &units[..i]].concat()).len() as u64,
            bit: Some(bit),
        };
        assert_eq!(check(&stream), Err(refused), "{:02X?}", stream);
        assert_eq!(file(&stream, &mut [0; 60]), Err(refused));
        assert_eq!(file(&stream, &mut []), Err(refused));
        assert_eq!(group(&stream, 0), Err(refused));
        assert_eq!(group(&stream, 9), Err(refused));
    }
}

/// One value of each field is enough: a stream reads its bodies as above.
#[test]
fn fields_in_streams() {
    for (code, good, fields) in LAYOUTS {
        for field in fields {
            let body = with(good, field.1, field.2, ruled_out(field));
            let unit: Unit = (code, &body);
            let (units, i) = match code {
                0xB0 => (vec![unit, PICTURE, slice(0)], 0),
                _ => (vec![HEAD, unit, PICTURE, slice(0)], 1),
            };
            refused_in_streams(&units, i, field.0, field.1);
        }
    }
}

#[test]
fn copyrights_in_streams() {
    let markers = [21, 42, 65].map(|bit| (7, bit, with(&COPYRIGHT, bit, 1, 0)));
    let rules = [(29, 5, rights(0, 255, Some(87))), (30, 22, rights(1, 0, Some(87)))];
    for (number, bit, body) in markers.iter().chain(&rules) {
        let unit: Unit = (0xB5, body);
        refused_in_streams(&[HEAD, unit, PICTURE, slice(0)], 1, *number, *bit);
        refused_in_streams(&[HEAD, PICTURE, unit, slice(0)], 2, *number, *bit);
        refused_in_streams(&[HEAD, PICTURE, slice(5), OTHER, unit, slice(0)], 4, *number, *bit);
    }
}

#[test]
fn slices_in_streams() {
    for again in [0, 4, 5] {
        refused_in_streams(&[HEAD, PICTURE, slice(5), slice(again), slice(68)], 3, 31, 0);
    }
    for row in [68, 69, 0xAF] {
        refused_in_streams(&[HEAD, PICTURE, slice(row), slice(row)], 2, 32, 0);
        refused_in_streams(&[HEAD, PICTURE, slice(67), slice(row)], 3, 32, 0);
        refused_in_streams(&[HEAD, PICTURE, slice(67), OTHER, slice(row)], 4, 32, 0);
    }
}

/// TWICE and SHORT come before a field's bit, and carry none.
#[test]
fn twice_and_short_have_no_bit() {
    let no_marker = with(&PLAIN, 23, 1, 0);
    for (second, number) in [(&no_marker[..], 10), (&no_marker[..5], 6)] {
        let units = [HEAD, (0xB5, &PLAIN), (0xB5, second), PICTURE, slice(0), END];
        let place = write(&units[..2]).len() as u64;
        let bit = None;
        assert_eq!(check(&write(&units)), Err(Refused { number, place, bit }));
    }
}
