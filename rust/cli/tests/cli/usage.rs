//! Help, wrong arguments, and files that are not there.

use std::fs;

use crate::support::*;

const COMMANDS: [&str; 8] = ["file", "units", "header", "body", "unescape", "golomb", "bins", "tables"];

#[test]
fn help_and_version() {
    let ran = avsplus(&["--help"]);
    assert_eq!((ran.status, ran.complaint.as_str()), (0, ""));
    for command in COMMANDS {
        assert!(ran.text().contains(&format!("\n  {} ", command)));
        let help = avsplus(&[command, "--help"]);
        assert_eq!((help.status, help.complaint.as_str()), (0, ""));
        assert!(help.text().contains(&format!("\nUsage: avsplus {} ", command)));
        assert!(help.text().contains("--json") && help.text().contains("Exit status: 0"));
        assert!(help.text().lines().all(|line| line.len() <= 90));
    }
    let ran = avsplus(&["--version"]);
    assert_eq!(
        (ran.status, ran.text()),
        (0, concat!("avsplus ", env!("CARGO_PKG_VERSION"), ", library interface 3\n"))
    );
}

#[test]
fn help_is_a_command_too() {
    assert_eq!(avsplus(&["help"]).text(), avsplus(&["--help"]).text());
    for command in COMMANDS {
        let ran = avsplus(&["help", command]);
        assert_eq!((ran.status, ran.text()), (0, avsplus(&[command, "--help"]).text()));
        assert_eq!(avsplus(&["--help", command]).text(), ran.text());
    }
    let ran = avsplus(&["help", "refusals"]);
    assert_eq!(
        (ran.status, ran.text().lines().filter(|line| line.starts_with("  ")).count()),
        (0, 29)
    );
    for line in [
        "  14  PAYLOAD OUT                more bits are wanted than the payload holds",
        "  25  VALUE of rate              the frame rate code is not 1 to 8",
        "  30  VALUE of copyright number  the owner is 0 and the number is not",
    ] {
        assert!(ran.text().lines().any(|found| found == line), "{}", line);
    }
    assert!(ran.text().lines().all(|line| line.len() <= 90));
    for topic in [&["--help"][..], &["-h"], &["help"], &["--json"]] {
        let ran = avsplus(&[&["help"], topic].concat());
        assert_eq!((ran.status, ran.text()), (0, avsplus(&["--help"]).text()));
    }
    let ran = avsplus(&["help", "play"]);
    assert_eq!((ran.status, ran.text()), (2, ""));
    assert_eq!(ran.complaint, "avsplus: no command \"play\"; see avsplus --help\n");
}

#[test]
fn the_man_page_has_all_help() {
    let page = avsplus(&["help", "--man"]);
    assert_eq!(page.status, 0);
    assert!(page.text().starts_with(".TH AVSPLUS 1 "));
    let plain = page.text().replace("\\-", "-");
    for text in [&[][..], &["file"], &["golomb"], &["refusals"]] {
        for line in avsplus(&[&["help"], text].concat()).text().lines() {
            assert!(plain.contains(line), "{}", line);
        }
    }
    for command in COMMANDS {
        assert!(plain.contains(&format!("\n.SH {}\n", command.to_uppercase())));
    }
}

#[test]
fn json_may_be_asked_for_before_the_command() {
    let name = written("json-first.avs", &example_1());
    let after = avsplus(&["units", &name, "--json"]);
    let before = avsplus(&["--json", "units", &name]);
    assert_eq!((before.status, before.text()), (after.status, after.text()));
    let refused = avsplus_reading(&["--json", "file", "-"], &[]);
    assert_eq!((refused.status, refused.json().get("answer").text()), (1, "NO CODE"));
    assert_eq!(
        avsplus(&["--json"]).complaint,
        "avsplus: no command given; see avsplus --help\n"
    );
}

#[test]
fn wrong_arguments() {
    let wrong: [(&[&str], &str); 16] = [
        (&[], "no command given; see avsplus --help"),
        (&["play"], "no command \"play\"; see avsplus --help"),
        (&["file"], "REC is missing; see avsplus file --help"),
        (&["file", "a", "b"], "\"b\" is one argument too many; see avsplus file --help"),
        (&["units", "a", "--hex"], "no option \"--hex\"; see avsplus units --help"),
        (
            &["body", "a", "x"],
            "N takes a whole number, not \"x\"; see avsplus body --help",
        ),
        (
            &["body", "a", "-1"],
            "N takes a whole number, not \"-1\"; see avsplus body --help",
        ),
        (
            &["header", "a", "--group"],
            "--group needs a value; see avsplus header --help",
        ),
        (&["bins", "a"], "--count is missing; see avsplus bins --help"),
        (
            &["bins", "a", "--bypass", "--stuffing"],
            "--bypass and --stuffing exclude each other; see avsplus bins --help",
        ),
        (
            &["unescape", "a", "--output", "-", "--json"],
            "--json and --output - exclude each other; see avsplus unescape --help",
        ),
        (
            &["golomb", "a", "--unit", "1", "--bits", "8"],
            "--unit, --escaped and --bits exclude each other; see avsplus golomb --help",
        ),
        (
            &["bins", "a", "--count", "1", "--escaped", "--bits", "all"],
            "--unit, --escaped and --bits exclude each other; see avsplus bins --help",
        ),
        (
            &["golomb", "a", "--bits", "some"],
            "--bits takes a whole number or all, not \"some\"; see avsplus golomb --help",
        ),
        (&["help", "file", "x"], "\"x\" is one argument too many; see avsplus --help"),
        (&["--version", "x"], "\"x\" is one argument too many; see avsplus --help"),
    ];
    for (arguments, complaint) in wrong {
        let ran = avsplus(arguments);
        assert_eq!((ran.status, ran.text()), (2, ""), "{:?}", arguments);
        assert_eq!(ran.complaint, format!("avsplus: {}\n", complaint));
    }
}

#[test]
fn files_that_cannot_be_read_or_written() {
    let missing = path("not-there.avs");
    let missing = missing.to_str().unwrap();
    for arguments in [
        &["file", missing][..],
        &["body", missing, "0", "--json"],
        &["golomb", missing],
    ] {
        let ran = avsplus(arguments);
        assert_eq!((ran.status, ran.text()), (2, ""));
        assert!(ran.complaint.starts_with(&format!("avsplus: cannot read {:?}: ", missing)));
    }
    let nowhere = path("no-such-folder/out.bin");
    let nowhere = nowhere.to_str().unwrap();
    let ran = avsplus_reading(&["unescape", "-", "--output", nowhere], &[0x80]);
    assert_eq!((ran.status, ran.text()), (2, ""));
    assert!(ran.complaint.starts_with(&format!("avsplus: cannot write {:?}: ", nowhere)));
}

#[test]
fn nothing_is_written_for_wrong_arguments() {
    let kept = written("kept-too.bin", b"kept");
    for arguments in [
        &["unescape", "-", "--output", &kept, "--hex"][..],
        &["unescape", "-", "--output", &kept, "extra"],
        &["unescape", "-", "--output", &kept, "--unit", "x"],
        &["unescape", "no-such-file", "--output", &kept],
    ] {
        let ran = avsplus_reading(arguments, &[0x80]);
        assert_eq!((ran.status, ran.text()), (2, ""));
        assert!(ran.complaint.starts_with("avsplus: ") && ran.complaint.ends_with('\n'));
        assert_eq!(fs::read(&kept).unwrap(), b"kept");
    }
}
