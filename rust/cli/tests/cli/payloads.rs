//! The commands on payloads.

use std::fs;

use crate::json_reader::Json;
use crate::support::*;

#[test]
fn escape_bits_are_removed() {
    let name = written("escapes.bin", &[0x00, 0x00, 0x02, 0xC0]);
    let ran = avsplus(&["unescape", &name]);
    assert_eq!(
        (ran.status, ran.text()),
        (0, "bits: 30\nbytes: 00000300\nread with: --bits 30\n")
    );
    let ran = avsplus(&["unescape", &name, "--json"]);
    assert_eq!(
        ran.text(),
        "{\"answer\":\"done\",\"number\":0,\"bits\":30,\"hex\":\"00000300\"}\n"
    );
}

#[test]
fn removed_escapes_go_to_a_file_or_to_standard_output() {
    let output = path("unescaped.bin");
    let ran = avsplus_reading(
        &["unescape", "-", "--output", output.to_str().unwrap()],
        &[0x00, 0x00, 0x02, 0xC0],
    );
    assert_eq!((ran.status, ran.text()), (0, "bits: 30\nread with: --bits 30\n"));
    assert_eq!(fs::read(output).unwrap(), [0x00, 0x00, 0x03, 0x00]);
    let ran = avsplus_reading(&["unescape", "-", "--output", "-"], &[0x00, 0x00, 0x02, 0xC0]);
    assert_eq!((ran.status, ran.output.as_slice()), (0, &[0x00, 0x00, 0x03, 0x00][..]));
    assert_eq!(ran.complaint, "avsplus: 30 bits: read them with --bits 30\n");
}

#[test]
fn a_refused_payload_leaves_the_file() {
    let output = written("kept.bin", b"kept");
    let ran = avsplus_reading(&["unescape", "-", "--output", &output], &[0; 65_537]);
    assert_eq!((ran.status, ran.text()), (1, ""));
    assert_eq!(
        ran.complaint,
        "avsplus: TOO LONG (13): there are more bytes than the limit of 65536 for a payload\n"
    );
    assert_eq!(fs::read(output).unwrap(), b"kept");
}

/// The filling of an unescaped payload is never read as data: not with the escape bits removed on the way, not with the bit count
/// that removal says, and not where nobody says how many bits there are.
#[test]
fn filling_is_never_read_as_a_number() {
    let raw = written("filled.raw", &ESCAPED);
    let unescaped = path("filled.out").to_str().unwrap().to_string();
    let ran = avsplus(&["unescape", &raw, "--output", &unescaped]);
    assert!(ran.text().starts_with("bits: 54\n"));
    for arguments in [
        &["golomb", &unescaped][..],
        &["golomb", &unescaped, "--bits", "54"],
        &["golomb", &raw, "--escaped"],
    ] {
        let json = avsplus(&[arguments, &["--place", "8", "--json"]].concat());
        assert_eq!(
            (json.status, json.json().get("answer").text()),
            (1, "PAYLOAD OUT"),
            "{:?}",
            arguments
        );
        assert_eq!(json.json().get("numbers").list(), []);
        assert_eq!(json.json().get("missing").number(), 1, "{:?}", arguments);
        let ran = avsplus(&[arguments, &["--place", "8"]].concat());
        assert_eq!((ran.status, ran.text().lines().last()), (1, Some("next place: 8")));
    }
    // With all bits said to be the payload's the number is there.
    let json = avsplus(&[
        "golomb", &unescaped, "--bits", "all", "--place", "8", "--count", "1", "--json",
    ])
    .json();
    assert_eq!(json.get("numbers").list()[0].get("number").number(), 8_389_121);
}

#[test]
fn filling_is_never_read_as_a_bin() {
    // Removal drops two bits, and two fill the last byte; the bins that take them are refused.
    let raw = written("filled-bins.raw", &[0x80, 0x00, 0x00, 0x02, 0xAA]);
    let unescaped = path("filled-bins.out").to_str().unwrap().to_string();
    assert!(avsplus(&["unescape", &raw, "--output", &unescaped])
        .text()
        .starts_with("bits: 38\n"));
    let decoded = |arguments: &[&str]| {
        let ran = avsplus(&[&["bins"], arguments, &["--count", "1000", "--bypass", "--json"]].concat());
        (
            ran.status,
            ran.json().get("bins").list().len(),
            ran.json().get("state").get("place").number(),
        )
    };
    let of_38 = decoded(&[&raw, "--escaped"]);
    assert_eq!((of_38.0, of_38.2 <= 38), (1, true));
    assert_eq!(decoded(&[&unescaped, "--bits", "38"]), of_38);
    assert_eq!(decoded(&[&unescaped]), of_38);
    let all = decoded(&[&unescaped, "--bits", "all"]);
    assert!(all.1 > of_38.1, "{:?} {:?}", all, of_38);
}

#[test]
fn what_may_be_filling_is_said() {
    let ran = avsplus_reading(&["bins", "-", "--count", "1"], &[0x80, 0x40, 0x00]);
    assert_eq!(
        (ran.status, ran.text().lines().next()),
        (1, Some("payload: 24 bits, of which the last 7 may be filling"))
    );
    let complaint = "avsplus: PAYLOAD OUT (14): after 0 of 1 bins, 1 more bit was wanted than the payload holds without its \
        last 7 bits, zeros, which may be filling and are not read: --bits says how many bits the payload has\n";
    assert_eq!(ran.complaint, complaint);
    let ran = avsplus_reading(&["bins", "-", "--count", "1"], &[0xC0]);
    let complaint = "avsplus: PAYLOAD OUT (14): to start, 7 more bits were wanted than the payload holds without its last 6 \
        bits, zeros, which may be filling and are not read: --bits says how many bits the payload has\n";
    assert_eq!((ran.status, ran.complaint.as_str()), (1, complaint));
    // 1, then 01 and zeros, of which one would end the number.
    let ran = avsplus_reading(&["golomb", "-"], &[0xA0]);
    let complaint =
        "avsplus: PAYLOAD OUT (14) at bit 1: 7 bits are left, and 1 more bit was wanted than the payload holds without its last \
        5 bits, zeros, which may be filling and are not read: --bits says how many bits the payload has\n";
    assert_eq!((ran.status, ran.complaint.as_str()), (1, complaint));
    let json = avsplus_reading(&["golomb", "-", "--json"], &[0xA0]).json();
    let names = ["payload_bits", "may_be_filling", "next_place", "bits_left", "missing"];
    assert_eq!(names.map(|name| json.get(name).number()), [8, 5, 1, 7, 1]);
    // Zeros that would be no number either.
    let ran = avsplus_reading(&["golomb", "-", "--place", "7"], &[0x80]);
    let complaint =
        "avsplus: PAYLOAD OUT (14) at bit 7: 1 bit is left, no whole number, and 1 more bit was wanted than the payload holds \
        without its last bit, a zero, which may be filling and is not read: --bits says how many bits the payload has\n";
    assert_eq!((ran.status, ran.complaint.as_str()), (1, complaint));
    let json = avsplus_reading(&["golomb", "-", "--json", "--bits", "all", "--count", "2"], &[0xA0]).json();
    assert_eq!(json.get("numbers").list()[1].get("number").number(), 1);
}

/// A recording whose unit 2, a slice, has the payload with the filling.
fn recording_with_payload() -> Vec<u8> {
    [
        unit(0xB0, &HEADER),
        unit(0xB3, &[0x80]),
        unit(0x00, &ESCAPED),
        unit(0xB1, &[]),
    ]
    .concat()
}

#[test]
fn payloads_of_units() {
    let name = written("payload.avs", &recording_with_payload());
    let raw = written("payload.raw", &ESCAPED);
    assert_eq!(
        avsplus(&["unescape", &name, "--unit", "2"]).text(),
        avsplus(&["unescape", &raw]).text()
    );
    for rest in [&["--json"][..], &["--count", "8"], &["--signed", "--place", "3"]] {
        let of_unit = avsplus(&[&["golomb", &name, "--unit", "2"], rest].concat());
        let of_raw = avsplus(&[&["golomb", &raw, "--escaped"], rest].concat());
        assert_eq!((of_unit.status, of_unit.output), (of_raw.status, of_raw.output));
    }
    let of_unit = avsplus(&["bins", &name, "--unit=2", "--count", "9"]);
    let of_raw = avsplus(&["bins", &raw, "--escaped", "--count", "9"]);
    assert_eq!((of_unit.status, of_unit.text()), (of_raw.status, of_raw.text()));
    let ran = avsplus(&["golomb", &name, "--unit", "4"]);
    assert_eq!((ran.status, ran.text()), (1, ""));
    assert_eq!(ran.complaint, "avsplus: NO ROW (16): there is no unit 4; the last is 3\n");
    let cut = written("payload-cut.avs", &recording_with_payload()[..35]);
    let ran = avsplus(&["bins", &cut, "--unit", "2", "--count", "1"]);
    assert_eq!(
        (ran.status, ran.complaint.as_str()),
        (
            1,
            "avsplus: UNENDED (11) at byte 35: the stream stops before it is complete\n"
        )
    );
}

#[test]
fn numbers_one_after_another() {
    // 1, 010, 011, then one 1 to end with.
    let name = written("golomb.bin", &[0b1010_0111]);
    let ran = avsplus(&["golomb", &name]);
    assert_eq!((ran.status, ran.complaint.as_str()), (0, ""));
    let lines: Vec<&str> = ran.text().lines().collect();
    assert_eq!(lines[..2], ["payload: 8 bits", "   place       number"]);
    assert_eq!(lines[2..4], ["       0            0", "       1            1"]);
    assert_eq!(
        lines[4..],
        ["       4            2", "       7            0", "next place: 8"]
    );
    let json = avsplus(&["golomb", &name, "--signed", "--json"]).json();
    let names = [
        "answer",
        "number",
        "payload_bits",
        "may_be_filling",
        "numbers",
        "next_place",
        "bits_left",
    ];
    assert_eq!(json.names(), names);
    let numbers: Vec<i64> = json
        .get("numbers")
        .list()
        .iter()
        .map(|entry| entry.get("number").number())
        .collect();
    assert_eq!(numbers, [0, 1, -1, 0]);
}

#[test]
fn numbers_within_bits_place_and_count() {
    let name = written("golomb-part.bin", &[0b1010_0111]);
    let ran = avsplus(&["golomb", &name, "--bits", "7", "--place", "1", "--json"]);
    let json = ran.json();
    assert_eq!(ran.status, 0);
    assert_eq!((json.get("numbers").list().len(), json.get("next_place").number()), (2, 7));
    let ran = avsplus(&["golomb", &name, "--count", "1", "--json"]);
    let json = ran.json();
    assert_eq!(ran.status, 0);
    assert_eq!((json.get("numbers").list().len(), json.get("bits_left").number()), (1, 7));
}

/// Bits that are left and are no whole number are said, with how many, from where on, and how many more were wanted.
#[test]
fn a_cut_number_is_said() {
    // 1, then four zeros, a 1 and two of four bits, which may be filling.
    let ran = avsplus_reading(&["golomb", "-"], &[0x84]);
    assert_eq!((ran.status, ran.text().lines().last()), (1, Some("next place: 1")));
    assert!(
        ran.complaint.starts_with(
            "avsplus: PAYLOAD OUT (14) at bit 1: 7 bits are left, no whole number, and 4 more bits were wanted than the payload \
            holds without its last 2 bits, zeros, which may be filling"
        ),
        "{}",
        ran.complaint
    );
    let ran = avsplus_reading(&["golomb", "-", "--json"], &[0x84]);
    let json = ran.json();
    let counts = ["place", "missing", "bits_left"].map(|name| json.get(name).number());
    assert_eq!((ran.status, counts), (1, [1, 4, 7]));
    assert_eq!(json.get("numbers").list().len(), 1);
    for (bits, byte, said) in [
        (
            "all",
            0x84,
            "7 bits are left, and 2 more bits were wanted than the payload holds",
        ),
        (
            "7",
            0x84,
            "6 bits are left, and 3 more bits were wanted than the payload holds",
        ),
        ("2", 0x80, "1 bit is left, and 1 more bit was wanted than the payload holds"),
    ] {
        let ran = avsplus_reading(&["golomb", "-", "--bits", bits], &[byte]);
        let complaint = format!("avsplus: PAYLOAD OUT (14) at bit 1: {}\n", said);
        assert_eq!((ran.status, ran.complaint), (1, complaint));
    }
    // Whoever asked for one number has it.
    assert_eq!(avsplus_reading(&["golomb", "-", "--count", "1"], &[0x84]).status, 0);
}

#[test]
fn numbers_that_are_refused() {
    let ran = avsplus_reading(&["golomb", "-"], &[]);
    assert_eq!((ran.status, ran.text()), (1, "payload: 0 bits\nnext place: 0\n"));
    assert_eq!(
        ran.complaint,
        "avsplus: PAYLOAD OUT (14) at bit 0: 0 bits are left, and 1 more bit was wanted than the payload holds\n"
    );
    let ran = avsplus_reading(&["golomb", "-", "--count", "9", "--json"], &[0xFF]);
    let json = ran.json();
    let counts = ["place", "missing"].map(|name| json.get(name).number());
    assert_eq!((ran.status, json.get("answer").text(), counts), (1, "PAYLOAD OUT", [8, 1]));
    assert_eq!(json.get("numbers").list().len(), 8);
    let ran = avsplus_reading(&["golomb", "-"], &[0x80, 0, 0, 0, 0, 1]);
    assert_eq!(
        (ran.status, ran.text()),
        (
            1,
            "payload: 48 bits\n   place       number\n       0            0\nnext place: 1\n"
        )
    );
    assert_eq!(
        ran.complaint,
        "avsplus: VALUE (8) at bit 1: 32 zeros stand here, and no number begins with so many\n"
    );
}

/// JSON has `missing` exactly where the answer is PAYLOAD OUT, and there it is at least 1.
#[test]
fn missing_bits_are_a_member_of_payload_out_alone() {
    let too_long = [0; 65_537];
    let asked: [(&[&str], &[u8], Option<i64>); 9] = [
        (&["golomb", "-", "--bits", "32"], &[0, 0, 0, 1], Some(31)),
        (&["golomb", "-", "--bits", "31", "--signed"], &[0, 0, 0, 1], Some(1)),
        (&["golomb", "-"], &[0xFF], None),
        (&["golomb", "-", "--bits", "32"], &[0; 4], None),
        (&["golomb", "-"], &too_long, None),
        (&["bins", "-", "--count", "1"], &[], Some(9)),
        (&["bins", "-", "--count", "1", "--bits", "16"], &[0x80, 0x00], Some(1)),
        (&["bins", "-", "--count", "1", "--bits", "24"], &[0x80, 0x40, 0x00], None),
        (&["bins", "-", "--count", "1"], &too_long, None),
    ];
    for (arguments, payload, missing) in asked {
        let json = avsplus_reading(&[arguments, &["--json"]].concat(), payload).json();
        assert_eq!(json.number_of("missing"), missing, "{:?}", arguments);
        assert_eq!(json.get("number").number() == 14, missing.is_some());
    }
    let sheet = avsplus_reading(&["file", "-", "--json"], &[0, 0, 1]).json();
    assert_eq!(sheet.number_of("missing"), None);
}

#[test]
fn bins_by_one_context() {
    let ran = avsplus_reading(&["bins", "-", "--count", "1", "--bits", "24"], &[0x80, 0x40, 0x00]);
    let sheet = "payload: 24 bits\nbins: 1\nstate: rS 0, rT 254, valueS 8, valueT 0, place 18\n\
        context: mps 1, lg 827, cycno 1\n";
    assert_eq!((ran.status, ran.text()), (0, sheet));
    let ran = avsplus_reading(&["bins", "-", "--count", "3", "--json", "--bits", "all"], &[0x40, 0x00]);
    let expected = "{\"answer\":\"done\",\"number\":0,\"payload_bits\":16,\"may_be_filling\":0,\"bins\":[0,0,1],\
        \"state\":{\"rs\":0,\"rt\":188,\"vs\":0,\"vt\":28,\"place\":12},\"context\":{\"mps\":0,\"lg\":927,\"cycno\":2}}\n";
    assert_eq!(ran.text(), expected);
}

#[test]
fn bins_without_a_context() {
    let ran = avsplus_reading(
        &["bins", "-", "--count", "1", "--bypass", "--bits", "24"],
        &[0x80, 0x40, 0x00],
    );
    assert_eq!(
        ran.text(),
        "payload: 24 bits\nbins: 1\nstate: rS 0, rT 254, valueS 8, valueT 0, place 18\n"
    );
    let stuffing = ["bins", "-", "--count", "2", "--stuffing", "--json", "--bits", "16"];
    let json = avsplus_reading(&stuffing, &[0x40, 0x00]).json();
    assert_eq!(json.get("bins").list(), [Json::Number(0), Json::Number(0)]);
    assert_eq!(json.get("context"), &Json::Null);
}

#[test]
fn bins_that_are_refused() {
    let ran = avsplus_reading(&["bins", "-", "--count", "1", "--bits", "16"], &[0x80, 0x00]);
    assert_eq!(ran.status, 1);
    assert!(ran.text().starts_with("payload: 16 bits\nbins: \nstate: "));
    assert_eq!(
        ran.complaint,
        "avsplus: PAYLOAD OUT (14): after 0 of 1 bins, 1 more bit was wanted than the payload holds\n"
    );
    let json = avsplus_reading(&["bins", "-", "--count", "1", "--json", "--bits=16"], &[0x80, 0x00]).json();
    assert_eq!(json.get("answer").text(), "PAYLOAD OUT");
    assert_eq!(json.get("bins").list(), []);
    // Too short to start.
    let ran = avsplus_reading(&["bins", "-", "--count", "0", "--json", "--bits", "8"], &[0x80, 0x00]);
    let json = ran.json();
    assert_eq!(
        (ran.status, json.get("number").number(), json.get("payload_bits").number()),
        (1, 14, 8)
    );
    assert_eq!((json.get("state"), json.get("context")), (&Json::Null, &Json::Null));
    let ran = avsplus_reading(&["bins", "-", "--count", "4", "--bits", "6"], &[0x80, 0x00]);
    assert_eq!((ran.status, ran.text()), (1, "payload: 6 bits\n"));
    let complaint = "avsplus: PAYLOAD OUT (14): to start, 3 more bits were wanted than the payload holds\n";
    assert_eq!(ran.complaint, complaint);
}

/// Bits that --bits says and that are not there are not made up, and a place past the end is no place.
#[test]
fn bits_and_places_that_are_not_there() {
    for command in [&["golomb", "-"][..], &["bins", "-", "--count", "1"]] {
        let ran = avsplus_reading(&[command, &["--bits", "32"]].concat(), &[0xB5, 0xB5]);
        assert_eq!((ran.status, ran.text()), (2, ""));
        assert_eq!(ran.complaint, "avsplus: cannot read 32 bits: there are 16\n");
    }
    let most = usize::MAX.to_string();
    for (place, status) in [("16", 0), ("17", 1), (most.as_str(), 1)] {
        let ran = avsplus_reading(&["golomb", "-", "--count", "0", "--place", place], &[0xB5, 0xB5]);
        assert_eq!(ran.status, status, "{}", place);
        let json = avsplus_reading(&["golomb", "-", "--json", "--count", "0", "--place", place], &[0xB5, 0xB5]).json();
        assert_eq!(json.get("number").number(), if status == 0 { 0 } else { 14 });
        assert_eq!(json.number_of("missing"), if status == 0 { None } else { Some(1) });
    }
    let ran = avsplus_reading(&["golomb", "-", "--place", "17"], &[0xB5, 0xB5]);
    let complaint = "avsplus: PAYLOAD OUT (14) at bit 17: a place past the end counts as the end, bit 16: 0 bits are left, \
        and 1 more bit was wanted than the payload holds\n";
    assert_eq!(
        (ran.text(), ran.complaint.as_str()),
        ("payload: 16 bits\nnext place: 17\n", complaint)
    );
}

/// Of a file over the limit nothing is known but that.
#[test]
fn payloads_over_the_limit() {
    let name = written("too-long.bin", &[0xFF; 100_000]);
    for arguments in [
        &["golomb", &name][..],
        &["golomb", &name, "--count", "0"],
        &["golomb", &name, "--bits", "8"],
        &["golomb", &name, "--escaped"],
        &["bins", &name, "--count", "0"],
    ] {
        let ran = avsplus(arguments);
        assert_eq!((ran.status, ran.text()), (1, ""), "{:?}", arguments);
        let complaint = "avsplus: TOO LONG (13): there are more bytes than the limit of 65536 for a payload\n";
        assert_eq!(ran.complaint, complaint);
    }
}

#[test]
fn units_without_escape_bits() {
    let name = written("no-payload.avs", &recording_with_payload());
    for (command, n, kind) in [("unescape", "0", "sequence header"), ("golomb", "3", "sequence end")] {
        let ran = avsplus(&[command, &name, "--unit", n]);
        assert_eq!((ran.status, ran.text()), (2, ""));
        let complaint = format!(
            "avsplus: unit {} has no escape bits: it is of kind {}, and only pictures and slices have them\n",
            n, kind
        );
        assert_eq!(ran.complaint, complaint);
    }
}

#[test]
fn an_output_that_is_the_input_is_refused() {
    let name = written("itself.bin", &ESCAPED);
    let linked = path("itself-linked.bin");
    let _ = fs::remove_file(&linked);
    fs::hard_link(&name, &linked).unwrap();
    let refused = "avsplus: --output is FILE itself; see avsplus unescape --help\n";
    for line in [
        format!("\"$A\" unescape '{}' --output '{}'", name, name),
        format!("\"$A\" unescape '{}' --output '{}'", name, linked.display()),
        format!("\"$A\" unescape - --output '{}' <'{}'", name, name),
    ] {
        let ran = shell(&line);
        assert_eq!((ran.status, ran.text(), ran.complaint.as_str()), (2, "", refused));
        assert_eq!(fs::read(&name).unwrap(), ESCAPED);
    }
    let mixed = path("mixed.out");
    let ran = shell(&format!(
        "\"$A\" unescape '{}' --output '{}' >'{}'",
        name,
        mixed.display(),
        mixed.display()
    ));
    assert_eq!((ran.status, fs::read(&mixed).unwrap().len()), (2, 0));
    assert_eq!(avsplus(&["unescape", &name, "--output", "/dev/null"]).status, 0);
}

/// What is written goes through links, and to standard output by its other name too.
#[test]
fn outputs_by_other_names() {
    let name = written("other-names.bin", &ESCAPED);
    let (target, link) = (path("target.out"), path("link.out"));
    let _ = (fs::remove_file(&target), fs::remove_file(&link));
    std::os::unix::fs::symlink(&target, &link).unwrap();
    assert_eq!(avsplus(&["unescape", &name, "--output", link.to_str().unwrap()]).status, 0);
    assert_eq!(fs::read(&target).unwrap().len(), 7);
    assert!(fs::symlink_metadata(&link).unwrap().file_type().is_symlink());
    let ran = avsplus(&["unescape", &name, "--output", "/dev/stdout"]);
    assert_eq!((ran.status, ran.output.len()), (0, 7));
    assert_eq!(ran.complaint, "avsplus: 54 bits: read them with --bits 54\n");
}
