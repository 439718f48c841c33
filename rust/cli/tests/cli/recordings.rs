//! The commands on recordings.

use crate::json_reader::Json;
use crate::support::*;

/// Two groups: the first with user data, a display extension with colour and a copyright extension, the second with square samples, a
/// bit rate over 262,144, a display extension without colour, and after its picture header number 2, which is opaque there, and a
/// copyright extension.
fn two_groups() -> Vec<u8> {
    let mut square = HEADER;
    square[6] = 0x44;
    square[11] = 0xA0;
    let head = [
        unit(0xB2, b"user\0"),
        unit(0xB5, &DISPLAY_WITH_COLOUR),
        unit(0xB5, &COPYRIGHT),
    ];
    let second = [
        unit(0xB0, &square),
        unit(0xB5, &DISPLAY),
        unit(0xB3, &[0x80]),
        unit(0xB5, &DISPLAY),
        unit(0xB5, &COPYRIGHT),
        unit(0x00, &[0x80, 0x00]),
    ];
    [group(&HEADER, &head), second.concat(), unit(0xB1, &[]), unit(0xB7, &[])].concat()
}

#[test]
fn the_sheet_of_example_1() {
    let ran = avsplus(&["file", &written("sheet-1.avs", &example_1())]);
    assert_eq!(ran.text(), include_str!("expected/example-1.txt"));
    assert_eq!((ran.status, ran.complaint.as_str()), (0, ""));
}

#[test]
fn the_sheet_of_two_groups() {
    let ran = avsplus_reading(&["file", "-"], &two_groups());
    assert_eq!(ran.text(), include_str!("expected/two-groups.txt"));
    assert_eq!(ran.status, 0);
}

#[test]
fn refusals_of_the_examples() {
    let good = example_1();
    let with_slice = |code| {
        let mut stream = example_1();
        stream[27] = code;
        stream
    };
    let mut unstuffed = example_1();
    unstuffed[18] = 0x00;
    let refused: [(&[u8], &str); 4] = [
        (
            &good[..29],
            "answer: UNENDED (11) at byte 29\nreason: the stream stops before it is complete\nbytes: 29\n",
        ),
        (
            &good[..32],
            "answer: CUT (2) at byte 29\nreason: a start code prefix has no code byte after it\nbytes: 32\nthere: 00 00 01\n",
        ),
        (
            &unstuffed,
            "answer: STUFFING (9) at byte 0\nreason: the body's end is not as required\nbytes: 33\n\
             there: 00 00 01 B0 48 40 0F 00 21 C2 4C C4 E2 08 00 20\n",
        ),
        (
            &with_slice(0x44),
            "answer: VALUE of slice row (32) at byte 24, bit 0 of the body\nreason: the code byte is not below the macroblock rows\n\
             bytes: 33\nthere: 00 00 01 44 80 00 00 01 B1\n",
        ),
    ];
    for (stream, sheet) in refused {
        let ran = avsplus_reading(&["file", "-"], stream);
        assert_eq!((ran.status, ran.text(), ran.complaint.as_str()), (1, sheet, ""));
    }
    assert_eq!(avsplus_reading(&["file", "-"], &with_slice(0x43)).status, 0);
}

/// The first example with other bytes in its sequence header.
fn with_header(change: fn(&mut [u8; 15])) -> Vec<u8> {
    let mut header = HEADER;
    change(&mut header);
    [group(&header, &[]), unit(0xB1, &[])].concat()
}

/// Where a refusal carries a bit, the sheet has the byte that it is in.
#[test]
fn sheets_of_refusals_with_a_bit() {
    let mut unmarked = DISPLAY;
    unmarked[2] &= !0x01;
    let extended = [group(&HEADER, &[unit(0xB5, &unmarked)]), unit(0xB1, &[])].concat();
    for (stream, sheet) in [
        (
            with_header(|header| header[7] &= 0x3F),
            "answer: VALUE of rate (25) at byte 0, bit 54 of the body\nreason: the frame rate code is not 1 to 8\nbytes: 33\n\
             there: 00 00 01 B0 48 40 0F 00 21 C2 4C 04 E2 08 00 20\nbit: 54 is that of value 02 in byte 10, which is 4C\n",
        ),
        (
            with_header(|header| header[11] &= !0x20),
            "answer: MARKER (7) at byte 0, bit 90 of the body\nreason: a marker bit is 0\nbytes: 33\n\
             there: 00 00 01 B0 48 40 0F 00 21 C2 4C C4 E2 08 00 00\nbit: 90 is that of value 20 in byte 15, which is 00\n",
        ),
        (
            extended,
            "answer: MARKER (7) at byte 19, bit 23 of the body\nreason: a marker bit is 0\nbytes: 43\n\
             there: 00 00 01 B5 22 0F 00 10 E0 80 00 00 01 B3 80 00\nbit: 23 is that of value 01 in byte 25, which is 00\n",
        ),
    ] {
        let ran = avsplus_reading(&["file", "-"], &stream);
        assert_eq!((ran.status, ran.text(), ran.complaint.as_str()), (1, sheet, ""));
    }
}

/// The other commands on recordings refuse in the same words, and so do those on payloads that take one of a recording's units.
#[test]
fn refusals_with_a_bit_in_words() {
    let name = written("rate.avs", &with_header(|header| header[7] &= 0x3F));
    for arguments in [
        &["units", &name][..],
        &["header", &name],
        &["body", &name, "0"],
        &["golomb", &name, "--unit", "1"],
    ] {
        let ran = avsplus(arguments);
        assert_eq!((ran.status, ran.text()), (1, ""));
        let words = "VALUE of rate (25) at byte 0, bit 54 of the body: the frame rate code is not 1 to 8";
        assert_eq!(ran.complaint, format!("avsplus: {}\n", words));
    }
}

/// Nothing is said of bytes that are not there.
#[test]
fn recordings_that_begin_with_no_code() {
    for (stream, reason) in [
        (&[][..], "there are no bytes"),
        (&[0x00, 0x00], "it begins with 00 00, not with 00 00 01"),
        (&[0x47, 0x40, 0x11, 0x10], "it begins with 47 40 11, not with 00 00 01"),
    ] {
        let ran = avsplus_reading(&["file", "-"], stream);
        let lines: Vec<&str> = ran.text().lines().take(2).collect();
        assert_eq!(lines, ["answer: NO CODE (1) at byte 0", &format!("reason: {}", reason)]);
        assert_eq!(ran.status, 1);
        let ran = avsplus_reading(&["units", "-"], stream);
        assert_eq!((ran.status, ran.text()), (1, ""));
        assert_eq!(ran.complaint, format!("avsplus: NO CODE (1) at byte 0: {}\n", reason));
    }
}

#[test]
fn a_recording_over_the_limit() {
    let ran = avsplus_reading(&["file", "-"], &vec![0; 16_777_217]);
    let sheet = "answer: TOO LONG (13) at byte 0
reason: there are more bytes than the limit of 16777216
\
        bytes: more than 16777216
";
    assert_eq!((ran.status, ran.text()), (1, sheet));
    let json = avsplus_reading(&["file", "-", "--json"], &vec![0; 16_777_217]).json();
    assert_eq!((json.get("number").number(), json.get("bytes")), (13, &Json::Null));
}

#[test]
fn the_sheet_as_json() {
    let json = avsplus(&["file", "--json", &written("json-1.avs", &example_1())]).json();
    assert_eq!(json.names(), ["answer", "number", "bytes", "units", "groups"]);
    assert_eq!((json.get("answer").text(), json.get("number").number()), ("FILED", 0));
    let units = json.get("units").list();
    let lengths: Vec<i64> = units.iter().map(|unit| unit.get("length").number()).collect();
    assert_eq!(lengths, [15, 1, 1, 0]);
    let names = [
        "unit",
        "group",
        "in_head",
        "code",
        "kind",
        "offset",
        "length",
        "trailing_zeros",
    ];
    assert_eq!(units[0].names(), names);
    assert_eq!(
        (units[1].get("code").number(), units[1].get("kind").text()),
        (0xB3, "I picture")
    );
    assert_eq!(units[3].get("group"), &Json::Null);
    let group = &json.get("groups").list()[0];
    assert_eq!(
        group.names(),
        ["group", "unit", "header", "worked_out", "display", "copyrights"]
    );
    assert_eq!(group.get("header").names().len(), 13);
    let worked_out = group.get("worked_out");
    assert_eq!(worked_out.get("bit_rate").number(), 20_000);
    assert_eq!(worked_out.get("macroblock_rows").number(), 68);
    assert_eq!(worked_out.get("frame_rate").get("numerator").number(), 25);
    assert_eq!(worked_out.get("display_ratio").get("denominator").number(), 9);
    assert_eq!(group.get("display"), &Json::Null);
    assert_eq!(group.get("copyrights").list(), []);
}

/// 496 lines, progressive or not, with a slice in this row.
fn of_496_lines(progressive: bool, row: u8) -> Vec<u8> {
    let mut header = HEADER;
    header[2] |= u8::from(progressive) << 7;
    header[4..6].copy_from_slice(&[0x0F, 0x82]);
    [unit(0xB0, &header), unit(0xB3, &[0x80]), unit(row, &[0x80]), unit(0xB1, &[])].concat()
}

/// The sheet says by which formula the rows were worked out.
#[test]
fn macroblock_rows() {
    for (progressive, last, how) in [
        (false, 31, "32  worked out: 2 x ((496 + 31) / 32), as progressive is 0"),
        (true, 30, "31  worked out: (496 + 15) / 16, as progressive is 1"),
    ] {
        let name = written(&format!("rows-{}.avs", last), &of_496_lines(progressive, last));
        let sheet = avsplus(&["file", &name]);
        let line = sheet.text().lines().find(|line| line.contains("macroblock rows")).unwrap();
        assert_eq!(
            (sheet.status, line.trim_start_matches("    macroblock rows").trim_start()),
            (0, how)
        );
        let json = avsplus(&["header", &name, "--json"]).json();
        let rows = json.get("worked_out").get("macroblock_rows");
        assert_eq!(rows.number(), i64::from(last) + 1);
        let refused = avsplus_reading(&["file", "-"], &of_496_lines(progressive, last + 1));
        let answer = refused.text().lines().next();
        let expected = "answer: VALUE of slice row (32) at byte 24, bit 0 of the body";
        assert_eq!((refused.status, answer), (1, Some(expected)));
    }
}

/// Aspect 1 says square samples: that is given.
#[test]
fn square_samples() {
    let name = written("square.avs", &two_groups());
    let ran = avsplus(&["header", &name, "--group", "1"]);
    let line = ran.text().lines().find(|line| line.contains("display ratio")).unwrap();
    assert_eq!(
        line.split("  ").filter(|part| !part.is_empty()).collect::<Vec<_>>(),
        ["display ratio", "square samples", "worked out: aspect 1"]
    );
    let json = avsplus(&["header", &name, "--group", "1", "--json"]).json();
    assert_eq!(json.get("worked_out").get("display_ratio").text(), "square samples");
}

#[test]
fn extensions_are_told_apart() {
    let name = written("extensions.avs", &two_groups());
    let text = avsplus(&["units", &name]);
    let kinds: Vec<&str> = text.text().lines().skip(1).map(|line| line[24..46].trim()).collect();
    let expected = [
        "sequence header",
        "user data",
        "display extension",
        "copyright extension",
        "I picture",
        "slice",
        "sequence header",
        "display extension",
        "I picture",
        "extension 2, opaque",
        "copyright extension",
        "slice",
        "sequence end",
        "edit code",
    ];
    assert_eq!(kinds, expected);
    let json = avsplus(&["units", &name, "--json"]).json();
    let told: Vec<(i64, &str)> = json
        .get("units")
        .list()
        .iter()
        .filter(|unit| unit.get("kind").text() == "extension")
        .map(|unit| unit.get("extension"))
        .map(|extension| (extension.get("number").number(), extension.get("kind").text()))
        .collect();
    let expected = [
        (2, "display"),
        (4, "copyright"),
        (2, "display"),
        (2, "opaque"),
        (4, "copyright"),
    ];
    assert_eq!(told, expected);
}

/// A number over 2^53, which readers of JSON would round, is a text.
#[test]
fn copyright_numbers_are_texts() {
    let name = written("copyright.avs", &two_groups());
    let json = avsplus(&["file", &name, "--json"]).json();
    for (group, unit) in json.get("groups").list().iter().zip([3, 10]) {
        let copyright = &group.get("copyrights").list()[0];
        assert_eq!(copyright.get("unit").number(), unit);
        assert_eq!((copyright.get("owner").number(), copyright.get("flag").number()), (7, 1));
        assert_eq!(
            copyright.get("worked_out").get("copyright_number").text(),
            "81985529216486895"
        );
    }
}

#[test]
fn a_refusal_as_json() {
    let stream = written("json-refused.avs", &example_1()[..29]);
    let ran = avsplus(&["file", &written("json-cut.avs", &example_1()[..32]), "--json"]);
    let (json, names) = (ran.json(), ["answer", "number", "offset", "meaning", "bytes", "there"]);
    assert_eq!((ran.status, json.names()), (1, names.to_vec()));
    assert_eq!((json.get("bytes").number(), json.get("there").text()), (32, "000001"));
    for command in [&["units"][..], &["header"], &["body"]] {
        let number: &[&str] = if command == ["body"] { &["0"] } else { &[] };
        let ran = avsplus(&[command, &[stream.as_str()], number, &["--json"]].concat());
        assert_eq!(
            ran.text(),
            "{\"answer\":\"UNENDED\",\"number\":11,\"offset\":29,\"meaning\":\"the stream stops before it is complete\"}\n"
        );
        assert_eq!((ran.status, ran.complaint.as_str()), (1, ""));
    }
}

/// A bit, and the field that a value is of, where there are any; the sheet has the byte of the bit too.
#[test]
fn a_refusal_with_a_bit_as_json() {
    let rate = written("json-rate.avs", &with_header(|header| header[7] &= 0x3F));
    let refusal = "{\"answer\":\"VALUE of rate\",\"number\":25,\"field\":\"rate\",\"offset\":0,\"bit\":54,\
                   \"meaning\":\"the frame rate code is not 1 to 8\"";
    let ran = avsplus(&["units", &rate, "--json"]);
    assert_eq!((ran.status, ran.text()), (1, format!("{}}}\n", refusal).as_str()));
    let sheet = "\"bytes\":33,\"there\":\"000001b048400f0021c24c04e2080020\",\"byte_of_bit\":{\"offset\":10,\"hex\":\"4c\"}";
    let ran = avsplus(&["file", &rate, "--json"]);
    assert_eq!((ran.status, ran.text()), (1, format!("{},{}}}\n", refusal, sheet).as_str()));

    let mut sliced = example_1();
    sliced[27] = 0x44;
    for (name, stream, members) in [
        (
            "marker",
            with_header(|header| header[9] &= !0x08),
            vec![
                "answer",
                "number",
                "offset",
                "bit",
                "meaning",
                "bytes",
                "there",
                "byte_of_bit",
            ],
        ),
        (
            "slice",
            sliced,
            vec!["answer", "number", "field", "offset", "bit", "meaning", "bytes", "there"],
        ),
    ] {
        let name = written(&format!("json-{}.avs", name), &stream);
        assert_eq!(avsplus(&["file", &name, "--json"]).json().names(), members);
    }
}

#[test]
fn units_alone() {
    let name = written("units.avs", &example_1());
    let ran = avsplus(&["units", &name]);
    assert_eq!((ran.status, ran.text().lines().count()), (0, 5));
    assert!(include_str!("expected/example-1.txt").contains(ran.text()));
    let json = avsplus(&["units", &name, "--json"]).json();
    assert_eq!(json.names(), ["answer", "number", "units"]);
}

#[test]
fn the_header_of_one_group() {
    let first = group(&HEADER, &[]);
    let second = group(&HEADER, &[unit(0xB5, &DISPLAY)]);
    let name = written("header.avs", &[first, second, unit(0xB7, &[])].concat());
    let ran = avsplus(&["header", &name]);
    assert!(include_str!("expected/example-1.txt").ends_with(ran.text()));
    assert!(ran
        .text()
        .ends_with("  display extension: not given\n\n  copyright extension: not given\n"));

    let ran = avsplus(&["header", &name, "--group", "1"]);
    assert!(ran.text().starts_with("group 1\n"));
    let json = avsplus(&["header", &name, "--group=1", "--json"]).json();
    assert_eq!(json.get("display").get("width").number(), 1920);
    assert_eq!(json.get("display").get("colour"), &Json::Null);

    let ran = avsplus(&["header", &name, "--group", "2"]);
    assert_eq!((ran.status, ran.text()), (1, ""));
    assert_eq!(ran.complaint, "avsplus: NO ROW (16): there is no group 2; the last is 1\n");
    let json = avsplus(&["header", &name, "--group", "2", "--json"]);
    assert_eq!((json.status, json.json().names()), (1, vec!["answer", "number", "meaning"]));
}

#[test]
fn the_body_of_a_unit() {
    let name = written("body.avs", &example_1());
    let ran = avsplus(&["body", &name, "0"]);
    assert_eq!((ran.status, ran.output.as_slice()), (0, &HEADER[..]));
    assert_eq!(
        avsplus(&["body", &name, "0", "--hex"]).text(),
        "48400f0021c24cc4e2080020020080\n"
    );
    assert_eq!(avsplus(&["body", &name, "3"]).text(), "");
    let json = avsplus(&["body", &name, "2", "--json"]).json();
    assert_eq!(
        (json.get("unit").number(), json.get("offset").number(), json.get("hex").text()),
        (2, 24, "80")
    );
    let ran = avsplus(&["body", &name, "4"]);
    assert_eq!((ran.status, ran.text()), (1, ""));
    assert_eq!(ran.complaint, "avsplus: NO ROW (16): there is no unit 4; the last is 3\n");
    // A body longer than what is written at once.
    let long = vec![0xAB; 200_000];
    let stream = [unit(0xB0, &HEADER), unit(0xB3, &long), unit(0x00, &[0x80]), unit(0xB1, &[])].concat();
    let ran = avsplus_reading(&["body", "-", "1"], &stream);
    assert_eq!(ran.output, long);
}

/// Code, offset and length of each unit that a line of the shell prints.
fn units_of(line: &str) -> Vec<[i64; 3]> {
    let json = shell(line).json();
    let numbers = |unit: &Json| ["code", "offset", "length"].map(|name| unit.get(name).number());
    json.get("units").list().iter().map(numbers).collect()
}

/// What follows a sequence header's start code is a recording, too, with the units from there on; one byte beside it there is none.
#[test]
fn a_recording_is_cut_at_a_sequence_header() {
    let name = written("cut.avs", &two_groups());
    let whole = units_of(&format!("$A units --json '{}'", name));
    let first = whole.iter().rposition(|unit| unit[0] == 0xB0).unwrap();
    let dropped = whole[first][1];
    let left = units_of(&format!("tail -c +{} '{}' | $A units --json -", dropped + 1, name));
    let expected = whole[first..]
        .iter()
        .map(|&[code, offset, length]| [code, offset - dropped, length]);
    assert!(first > 0 && left.iter().copied().eq(expected), "{:?}", left);
    for beside in [dropped, dropped + 2] {
        let ran = shell(&format!("tail -c +{} '{}' | $A file -", beside, name));
        assert_eq!(ran.status, 1);
        assert!(ran.text().starts_with("answer: NO CODE (1) at byte 0\n"), "{}", ran.text());
    }
}
