//! What the program prints against the independent decoder, on generated recordings and payloads, good and damaged.

use std::collections::BTreeSet;

use independent::generate::{bins_payload, damaged, judged_bodies, payload, stream, streams_with, Random, BITS};
use independent::{Copyright, Display, Extension, Header, Unread};

use crate::json_reader::Json;
use crate::support::*;

const RECORDINGS: u64 = 400;
const PAYLOADS: u64 = 300;

/// The numbers of an object's members.
fn numbers(object: &Json, names: &[&str]) -> Vec<i64> {
    names.iter().map(|name| object.get(name).number()).collect()
}

fn wide(numbers: &[u32]) -> Vec<i64> {
    numbers.iter().map(|&number| i64::from(number)).collect()
}

fn pair(ratio: (u32, u32)) -> Vec<i64> {
    wide(&[ratio.0, ratio.1])
}

fn same_header(group: &Json, header: &Header) {
    let fields = group.get("header");
    let names = [
        "profile",
        "level",
        "progressive",
        "horizontal_size",
        "vertical_size",
        "chroma_format",
        "precision",
        "aspect",
        "frame_rate_code",
        "low_delay",
        "buffer_size",
    ];
    let read = [
        header.profile,
        header.level,
        header.progressive,
        header.horizontal,
        header.vertical,
        header.chroma,
        header.precision,
        header.aspect,
        header.rate,
        header.delay,
        header.buffer,
    ];
    assert_eq!(numbers(fields, &names), wide(&read));
    let [high, low] = ["bit_rate_high", "bit_rate_low"].map(|name| fields.get(name).number());
    assert_eq!(high * 262_144 + low, i64::from(header.bitrate));
}

fn same_worked_out(group: &Json, header: &Header) {
    let worked_out = group.get("worked_out");
    let names = ["bit_rate", "macroblock_columns", "macroblock_rows"];
    let columns = independent::macroblock_columns(header);
    let expected = wide(&[header.bitrate, columns, independent::macroblock_rows(header)]);
    assert_eq!(numbers(worked_out, &names), expected);
    let ratio = |name| numbers(worked_out.get(name), &["numerator", "denominator"]);
    assert_eq!(ratio("frame_rate"), pair(independent::frame_rate(header.rate).unwrap()));
    match independent::display_ratio(header.aspect) {
        Some(expected) => assert_eq!(ratio("display_ratio"), pair(expected)),
        None => assert_eq!(worked_out.get("display_ratio").text(), "square samples"),
    }
}

fn same_display(shown: &Json, display: Option<&Display>) {
    let display = match display {
        Some(display) => display,
        None => return assert_eq!(shown, &Json::Null),
    };
    let names = ["format", "range", "width", "height", "stereo"];
    let read = [display.format, display.range, display.width, display.height, display.stereo];
    assert_eq!(numbers(shown, &names), wide(&read));
    match display.colour {
        Some(colour) => assert_eq!(
            numbers(shown.get("colour"), &["primaries", "transfer", "matrix"]),
            wide(&colour)
        ),
        None => assert_eq!(shown.get("colour"), &Json::Null),
    }
}

fn same_copyright(shown: &Json, unit: usize, copyright: &Copyright) {
    let expected = [
        unit as i64,
        copyright.flag.into(),
        copyright.owner.into(),
        copyright.original.into(),
    ];
    assert_eq!(numbers(shown, &["unit", "flag", "owner", "original"]), expected);
    assert_eq!(
        shown.get("worked_out").get("copyright_number").text(),
        copyright.number.to_string()
    );
}

/// Which extension a unit is, where it is one: none, or its kind with its number.
fn extension_of(unit: &Json) -> Option<(&str, i64)> {
    if unit.get("kind").text() != "extension" {
        return None;
    }
    let extension = unit.get("extension");
    Some((extension.get("kind").text(), extension.get("number").number()))
}

/// The units of a filed stream against its rows, and the copyright extensions against those that the groups show.
fn same_units(stream: &[u8], rows: &[u32], sheet: &Json) {
    let units = sheet.get("units").list();
    assert_eq!(units.len(), rows.len() / 3);
    let (mut groups, mut in_head, mut shown) = (0, false, 0);
    for (i, (row, unit)) in rows.chunks(3).zip(units).enumerate() {
        assert_eq!(numbers(unit, &["code", "offset", "length"]), wide(row));
        assert_eq!(Some(unit.get("kind").text()), independent::kind(row[0] as u8));
        match row[0] {
            0xB0 => (groups, in_head, shown) = (groups + 1, true, 0),
            0xB3 | 0xB6 => in_head = false,
            _ => {}
        }
        let group = if [0xB1, 0xB7].contains(&row[0]) {
            Json::Null
        } else {
            Json::Number(groups - 1)
        };
        assert_eq!((unit.get("group"), unit.get("in_head")), (&group, &Json::Truth(in_head)));
        if row[0] != 0xB5 {
            assert_eq!(extension_of(unit), None);
            continue;
        }
        let (body, length) = independent::row_body(stream, rows, i as u64);
        match independent::extension(&stream[body..body + length], in_head).unwrap() {
            Extension::Display(_) => assert_eq!(extension_of(unit), Some(("display", 2))),
            Extension::Opaque(number) => assert_eq!(extension_of(unit), Some(("opaque", number.into()))),
            Extension::Copyright(copyright) => {
                assert_eq!(extension_of(unit), Some(("copyright", 4)));
                let of_group = sheet.get("groups").list()[groups as usize - 1].get("copyrights").list();
                same_copyright(&of_group[shown], i, &copyright);
                shown += 1;
            }
        }
    }
    assert_eq!(sheet.get("groups").list().len(), groups as usize);
}

/// Compares the sheet of a stream, and answers whether it is filed.
fn same_sheet(stream: &[u8]) -> bool {
    let ran = avsplus_reading(&["file", "-", "--json"], stream);
    let sheet = ran.json();
    let units = match independent::check(stream) {
        Ok(units) => units as usize,
        Err(refused) => {
            assert_eq!(
                (ran.status, Some(sheet.get("answer").text())),
                (1, independent::name(refused.number))
            );
            assert_eq!(
                numbers(&sheet, &["number", "offset"]),
                [i64::from(refused.number), refused.place as i64]
            );
            assert_eq!(sheet.number_of("bit"), refused.bit.map(|bit| bit as i64));
            return false;
        }
    };
    assert_eq!((ran.status, sheet.get("answer").text()), (0, "FILED"));
    let mut rows = vec![0; 3 * units];
    independent::file(stream, &mut rows).unwrap();
    same_units(stream, &rows, &sheet);
    for (g, group) in sheet.get("groups").list().iter().enumerate() {
        let (header, display) = independent::group(stream, g as u64).unwrap();
        same_header(group, &header);
        same_worked_out(group, &header);
        same_display(group.get("display"), display.as_ref());
    }
    true
}

#[test]
fn sheets_of_generated_recordings() {
    let mut random = Random::new(8);
    let good = (0..RECORDINGS).filter(|_| same_sheet(&stream(&mut random))).count();
    let of_damaged = (0..RECORDINGS).filter(|_| same_sheet(&damaged(&mut random))).count();
    assert!(good as u64 > RECORDINGS / 2, "{} good", good);
    assert!((of_damaged as u64) < RECORDINGS / 2, "{} good of damaged ones", of_damaged);
}

/// Every bit that a body is refused at, once.
#[test]
fn sheets_of_refusals_with_each_bit() {
    let mut met = BTreeSet::new();
    for stream in judged_bodies(false).iter().flat_map(streams_with) {
        let refused = independent::check(&stream).err();
        let bit = refused.and_then(|refused| Some((refused.number, refused.bit?)));
        if bit.map_or(false, |bit| met.insert(bit)) {
            assert!(!same_sheet(&stream));
        }
    }
    // All but the two of slices, whose bit is 0.
    let of_bodies = BITS.iter().copied().filter(|(_, bit)| *bit > 0);
    assert!(met.into_iter().eq(of_bodies));
}

/// The payload without its escape bits, and its bit count.
fn unescaped(raw: &[u8]) -> (Vec<u8>, u64) {
    let mut bytes = vec![0; raw.len()];
    let bits = independent::unescape(raw, &mut bytes).unwrap();
    (bytes, bits)
}

/// The number of an answer, and how many bits are missing where it is PAYLOAD OUT.
fn answered(ran: &Ran) -> (i64, Option<i64>) {
    let json = ran.json();
    let number = json.get("number").number();
    assert_eq!(ran.status, i32::from(number != 0));
    (number, json.number_of("missing"))
}

/// The same of what ended the reading, if it was not done.
fn ended(refused: Option<Unread>) -> (i64, Option<i64>) {
    refused.map_or((0, None), |unread| (unread.number.into(), unread.missing.map(i64::from)))
}

#[test]
fn numbers_of_generated_payloads() {
    let mut random = Random::new(9);
    for _ in 0..PAYLOADS {
        let raw = payload(&mut random);
        let (bytes, bits) = unescaped(&raw);
        let (mut expected, mut place) = (Vec::new(), 0);
        let refused = loop {
            match independent::golomb(&bytes, bits, place) {
                Ok((number, after)) => {
                    expected.push([place as i64, i64::from(number)]);
                    place = after;
                }
                Err(Unread { number: 14, .. }) if place == bits && !expected.is_empty() => break None,
                Err(refused) => break Some(refused),
            }
        };
        let ran = avsplus_reading(&["golomb", "-", "--escaped", "--json"], &raw);
        let json = ran.json();
        let found = json.get("numbers").list().iter();
        let found: Vec<Vec<i64>> = found.map(|number| numbers(number, &["place", "number"])).collect();
        assert_eq!(found, expected);
        let names = ["payload_bits", "may_be_filling", "next_place", "bits_left"];
        let rest = [bits as i64, 0, place as i64, (bits - place) as i64];
        assert_eq!(numbers(&json, &names), rest);
        assert_eq!(answered(&ran), ended(refused));
    }
}

#[test]
fn bins_of_generated_payloads() {
    let mut random = Random::new(10);
    for _ in 0..PAYLOADS {
        let raw = bins_payload(&mut random);
        let (bytes, bits) = unescaped(&raw);
        let wanted = random.between(1, 60);
        let ran = avsplus_reading(&["bins", "-", "--escaped", "--json", "--count", &wanted.to_string()], &raw);
        let json = ran.json();
        let mut state = match independent::start(&bytes, bits) {
            Ok(state) => state,
            Err(refused) => {
                assert_eq!(answered(&ran), ended(Some(refused)));
                continue;
            }
        };
        let (mut context, mut bins, mut refused) = (independent::fresh(), Vec::new(), None);
        while (bins.len() as u64) < wanted && refused.is_none() {
            match independent::decode(&bytes, bits, state, context) {
                Ok((bin, after, learned)) => {
                    bins.push(Json::Number(bin.into()));
                    (state, context) = (after, learned);
                }
                Err(unread) => refused = Some(unread),
            }
        }
        assert_eq!((json.get("bins").list(), answered(&ran)), (&bins[..], ended(refused)));
        let after = [state.rs, state.rt, state.vs, state.vt, state.place].map(|word| word as i64);
        assert_eq!(numbers(json.get("state"), &["rs", "rt", "vs", "vt", "place"]), after);
        let learned = [context.mps, context.lg, context.cycno].map(|word| word as i64);
        assert_eq!(numbers(json.get("context"), &["mps", "lg", "cycno"]), learned);
    }
}

/// A number with 31 zeros, and the start of bins, cut at each bit: every count of missing bits that there is.
#[test]
fn numbers_and_starts_cut_at_each_bit() {
    let bytes = [0, 0, 0, 1, 0, 0, 0, 0];
    let asked = |command: &[&str], bits: u64| {
        let bits = bits.to_string();
        answered(&avsplus_reading(&[command, &["--json", "--bits", &bits]].concat(), &bytes))
    };
    let (mut of_numbers, mut of_starts) = (BTreeSet::new(), BTreeSet::new());
    for bits in 0..=63 {
        let number = asked(&["golomb", "-", "--count", "1"], bits);
        assert_eq!(number, ended(independent::golomb(&bytes, bits, 0).err()), "{}", bits);
        let start = asked(&["bins", "-", "--count", "0"], bits);
        assert_eq!(start, ended(independent::start(&bytes, bits).err()), "{}", bits);
        of_numbers.extend(number.1);
        of_starts.extend(start.1);
    }
    assert!(of_numbers.into_iter().eq(1..=31));
    assert!(of_starts.into_iter().eq(1..=9));
}
