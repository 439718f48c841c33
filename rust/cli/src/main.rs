//! Files AVS+ (GY/T 257.1) recordings at a command line.

#![deny(unsafe_code)]

mod args;
mod bins;
mod failure;
mod files;
mod golomb;
mod help;
mod json;
mod manual;
mod payloads;
mod recordings;
mod sheet;
#[allow(unsafe_code)]
mod standard;
mod tables;

use std::env;
use std::ffi::{OsStr, OsString};
use std::io::{self, Write};
use std::process::ExitCode;

use avsplus::{ListedRefusal, Reason, Refused};

use args::{Args, Shape};
use failure::{Failure, Status};
use standard::{complain, output_is_open, Output};

/// A command: its name, its help, its arguments and what it does.
struct Command {
    name: &'static str,
    help: &'static str,
    shape: Shape,
    run: fn(&Args, &mut dyn Write) -> Result<Status, Failure>,
}

const COMMANDS: &[Command] = &[
    Command {
        name: "file",
        help: help::FILE,
        shape: Shape {
            operands: &["REC"],
            flags: &[],
            options: &[],
        },
        run: recordings::file,
    },
    Command {
        name: "units",
        help: help::UNITS,
        shape: Shape {
            operands: &["REC"],
            flags: &[],
            options: &[],
        },
        run: recordings::units,
    },
    Command {
        name: "header",
        help: help::HEADER,
        shape: Shape {
            operands: &["REC"],
            flags: &[],
            options: &["--group"],
        },
        run: recordings::header,
    },
    Command {
        name: "body",
        help: help::BODY,
        shape: Shape {
            operands: &["REC", "N"],
            flags: &["--hex"],
            options: &[],
        },
        run: recordings::body,
    },
    Command {
        name: "unescape",
        help: help::UNESCAPE,
        shape: Shape {
            operands: &["FILE"],
            flags: &[],
            options: &["--unit", "--output"],
        },
        run: payloads::unescape,
    },
    Command {
        name: "golomb",
        help: help::GOLOMB,
        shape: Shape {
            operands: &["FILE"],
            flags: &["--escaped", "--signed"],
            options: &["--unit", "--bits", "--place", "--count"],
        },
        run: golomb::golomb,
    },
    Command {
        name: "bins",
        help: help::BINS,
        shape: Shape {
            operands: &["FILE"],
            flags: &["--escaped", "--bypass", "--stuffing"],
            options: &["--unit", "--bits", "--count"],
        },
        run: bins::bins,
    },
    Command {
        name: "tables",
        help: help::TABLES,
        shape: Shape {
            operands: &[],
            flags: &[],
            options: &[],
        },
        run: tables::tables,
    },
];

/// Exit status of a refusal.
const REFUSED: u8 = 1;
/// Exit status of wrong arguments, and of files and output that cannot be read or written.
const FAILED: u8 = 2;

fn main() -> ExitCode {
    let given: Vec<OsString> = env::args_os().skip(1).collect();
    let mut output = Output::new();
    let (asked_json, outcome) = run(&given, &mut output);
    let outcome = match outcome {
        Err(Failure::Refused(refusal)) if asked_json => {
            json::line(&mut output, |object| object.refused(&refusal)).map(|()| Status::Refused)
        }
        other => other,
    };
    // What was written so far comes before a complaint, and output that is lost is a failure whatever the answer is.
    let flushed = output.flush().map_err(Failure::from);
    let status = exit_status(&outcome);
    ExitCode::from(match (outcome, flushed) {
        (Err(Failure::Output(_)), _) | (_, Ok(())) => status,
        (_, Err(failure)) if failure.is_closed_pipe() => status,
        (_, Err(failure)) => exit_status(&Err(failure)),
    })
}

/// The exit status, with the complaint written. A reader who has seen enough is no failure.
fn exit_status(outcome: &Result<Status, Failure>) -> u8 {
    match outcome {
        Ok(Status::Done) => 0,
        Ok(Status::Refused) => REFUSED,
        Err(failure) if failure.is_closed_pipe() => 0,
        Err(failure) => {
            complain(&failure.in_words());
            match failure {
                Failure::Refused(_) => REFUSED,
                _ => FAILED,
            }
        }
    }
}

/// Runs what the arguments ask for, and says whether JSON was asked for.
fn run(given: &[OsString], output: &mut dyn Write) -> (bool, Result<Status, Failure>) {
    let before = given.iter().take_while(|&argument| argument == "--json").count();
    let (first, rest) = match given[before..].split_first() {
        Some(split) => split,
        None => return (false, Err(Failure::usage("no command given"))),
    };
    if let Some(asked) = asked_for_help(first, rest, output) {
        return (false, asked);
    }
    let command = match find(first) {
        Ok(command) => command,
        Err(failure) => return (false, Err(failure)),
    };
    if command.shape.asks_for_help(rest) {
        return (false, help_on(command, output));
    }
    if let Err(failure) = ready() {
        return (false, Err(failure));
    }
    match command.shape.parse(&[&given[..before], rest].concat()) {
        Ok(args) => (
            args.json(),
            (command.run)(&args, output).map_err(|failure| failure.of(command.name)),
        ),
        Err(failure) => (false, Err(failure.of(command.name))),
    }
}

/// Asked before anything is done: no answer can be given to a standard output that is not open, nor with another library.
fn ready() -> Result<(), Failure> {
    output_is_open()?;
    match avsplus::version() {
        avsplus::INTERFACE => Ok(()),
        other => Err(Refused::from(Reason::OtherInterface(other)).into()),
    }
}

fn find(name: &OsStr) -> Result<&'static Command, Failure> {
    let command = COMMANDS.iter().find(|command| name == command.name);
    command.ok_or_else(|| Failure::usage(format!("no command {:?}", name.to_string_lossy())))
}

/// What is no command: help and the version.
fn asked_for_help(first: &OsStr, rest: &[OsString], output: &mut dyn Write) -> Option<Result<Status, Failure>> {
    Some(match first.to_str()? {
        "help" | "--help" | "-h" => help(rest, output),
        "--version" | "-V" => version(rest, output),
        _ => return None,
    })
}

fn version(rest: &[OsString], output: &mut dyn Write) -> Result<Status, Failure> {
    only_one(rest)?;
    let interface = avsplus::version();
    done(writeln!(
        output,
        "avsplus {}, library interface {}",
        env!("CARGO_PKG_VERSION"),
        interface
    ))
}

/// No more arguments but `--json`: help and the version are text, whatever else is asked for.
fn only_one(rest: &[OsString]) -> Result<(), Failure> {
    match rest.iter().find(|&argument| argument != "--json") {
        Some(extra) => Err(Failure::usage(format!(
            "{:?} is one argument too many",
            extra.to_string_lossy()
        ))),
        None => Ok(()),
    }
}

fn done(written: io::Result<()>) -> Result<Status, Failure> {
    Ok(written.map(|()| Status::Done)?)
}

/// `help [COMMAND | refusals | --man]`
fn help(rest: &[OsString], output: &mut dyn Write) -> Result<Status, Failure> {
    let topic = rest.iter().position(|topic| topic != "--json");
    if let Some(topic) = topic {
        only_one(&rest[topic + 1..])?;
    }
    match topic.map(|topic| rest[topic].to_string_lossy()).as_deref() {
        None | Some("help" | "--help" | "-h") => done(output.write_all(help::OVERVIEW.as_bytes())),
        Some("refusals") => done(write_refusals(output)),
        Some("--man") => done(manual::write(output)),
        Some(name) => help_on(find(OsStr::new(name))?, output),
    }
}

fn help_on(command: &Command, output: &mut dyn Write) -> Result<Status, Failure> {
    done(output.write_all(command.help.as_bytes()))
}

/// The table of refusals.
fn write_refusals(output: &mut dyn Write) -> io::Result<()> {
    output.write_all(help::REFUSALS.as_bytes())?;
    let width = ListedRefusal::all().map(|listed| listed.name.len()).max().unwrap_or(0);
    for listed in ListedRefusal::all() {
        let (number, name) = (listed.number, listed.name);
        writeln!(output, "  {:>2}  {:<width$}  {}", number, name, listed.meaning, width = width)?;
    }
    Ok(())
}
