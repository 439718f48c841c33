//! What happens to output: it is written as it comes, to a reader who may have seen enough, or to nowhere.

use std::io::{BufRead, BufReader};

use crate::support::*;

/// Bytes of a smallest group.
const GROUP: usize = 29;

/// A recording of so many smallest groups.
fn small_groups(count: usize) -> Vec<u8> {
    [group(&HEADER, &[]).repeat(count), unit(0xB1, &[])].concat()
}

/// Memory stays within the file, its rows and a few megabytes, however long the output is: the program may take so much and no
/// more.
#[test]
fn memory_does_not_grow_with_the_output() {
    const GROUPS: usize = 70_000;
    const FEW_MEGABYTES: usize = 12 << 20;
    let name = written("small-groups.avs", &small_groups(GROUPS));
    // Three units a group, 12 bytes each.
    let most = GROUPS * GROUP + 3 * GROUPS * 12 + FEW_MEGABYTES;
    for (arguments, least) in [("file", 90 << 20), ("file --json", 50 << 20), ("units", 10 << 20)] {
        let line = format!("ulimit -v {}; \"$A\" {} '{}' | wc -c", most / 1024, arguments, name);
        let ran = shell(&line);
        assert_eq!(ran.complaint, "");
        let written: usize = ran.text().trim().parse().unwrap();
        assert!(written > least, "{} of {}", written, arguments);
    }
}

/// A reader who has seen enough is no failure, and ends it.
#[test]
fn a_closed_pipe_is_no_failure() {
    let payload = written("pipe.bin", &[0xFF; 65_536]);
    let recording = written("pipe.avs", &small_groups(20_000));
    for arguments in [
        &["golomb", &payload][..],
        &["file", &recording],
        &["file", &recording, "--json"],
        &["units", &recording],
    ] {
        assert_eq!(read_a_little(arguments), (Some(0), String::new()), "{:?}", arguments);
    }
}

/// Output that is lost is a failure, and input that is not there is no empty recording.
#[test]
fn closed_streams_and_full_disks() {
    let name = written("closed.avs", &example_1());
    for arguments in [
        &format!("file '{}'", name),
        &format!("--json file '{}'", name),
        &format!("golomb '{}'", name),
        "--help",
        "tables",
        "--json tables",
        "help bins",
        "--version",
    ] {
        let ran = shell(&format!("\"$A\" {} >&-", arguments));
        assert_eq!((ran.status, ran.text()), (2, ""), "{}", arguments);
        assert!(ran
            .complaint
            .ends_with("avsplus: cannot write standard output: it is not open for writing\n"));
        let ran = shell(&format!("\"$A\" {} >/dev/full", arguments));
        assert_eq!(ran.status, 2);
        assert!(ran.complaint.contains("avsplus: cannot write standard output: No space left"));
        // That reaches nobody either, but was asked for.
        let unread = shell(&format!("\"$A\" {} >/dev/null", arguments));
        assert!(!unread.complaint.contains("write"));
    }
    // Nothing would be written of an empty body, but nobody could have read it.
    assert_eq!(shell(&format!("\"$A\" body '{}' 3 >&-", name)).status, 2);
    for line in [
        "\"$A\" file - <&-",
        "\"$A\" file /dev/stdin <&-",
        "\"$A\" file - 0>/dev/null",
        "\"$A\" unescape - 0>/dev/null",
    ] {
        let ran = shell(line);
        assert_eq!((ran.status, ran.text()), (2, ""), "{}", line);
        assert_eq!(
            ran.complaint,
            "avsplus: cannot read standard input: it is not open for reading\n"
        );
    }
}

/// Output that is open for reading alone is lost too, and so is a bit count without standard error.
#[test]
fn streams_that_are_open_the_other_way() {
    let raw = written("other-way.bin", &ESCAPED);
    let output = path("other-way.out");
    let _ = std::fs::remove_file(&output);
    for redirection in ["1</dev/null", ">&-"] {
        let ran = shell(&format!("\"$A\" unescape '{}' {}", raw, redirection));
        assert_eq!((ran.status, ran.complaint.lines().count()), (2, 1));
        // Without the bit count, which goes to standard output, the file would be of no use.
        let ran = shell(&format!(
            "\"$A\" unescape '{}' --output '{}' {}",
            raw,
            output.display(),
            redirection
        ));
        assert_eq!((ran.status, output.exists()), (2, false));
    }
    for redirection in ["2>&-", "2</dev/null"] {
        let ran = shell(&format!("\"$A\" unescape '{}' --output - {}", raw, redirection));
        assert_eq!(ran.status, 2);
    }
}

/// A refusal is one, however little of the output is read.
#[test]
fn a_closed_pipe_does_not_change_the_answer() {
    let payload = written("pipe-cut.bin", &[&[0xFF; 65_535][..], &[0x01]].concat());
    for arguments in [
        &["golomb", &payload][..],
        &["golomb", &payload, "--json"],
        &["bins", &payload, "--count", "99999999"],
        &["bins", &payload, "--count", "99999999", "--json"],
    ] {
        let (status, complaint) = read_a_little(arguments);
        assert_eq!(status, Some(1), "{:?}", arguments);
        assert_eq!(complaint.contains("PAYLOAD OUT"), !arguments.contains(&"--json"));
    }
}

/// Runs the program for a reader who takes a few bytes and no more.
fn read_a_little(arguments: &[&str]) -> (Option<i32>, String) {
    let mut child = started(arguments);
    let mut output = BufReader::with_capacity(16, child.stdout.take().unwrap());
    assert!(!output.fill_buf().unwrap().is_empty());
    drop(output);
    let done = child.wait_with_output().unwrap();
    (done.status.code(), String::from_utf8(done.stderr).unwrap())
}
