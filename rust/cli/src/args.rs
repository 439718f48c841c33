//! The arguments of a command: operands, flags, and options with a value.

use std::ffi::{OsStr, OsString};
use std::os::unix::ffi::OsStrExt;

use crate::failure::Failure;

/// What arguments a command takes; all take `--json`.
pub struct Shape {
    /// The names of its operands, all needed.
    pub operands: &'static [&'static str],
    /// Its flags.
    pub flags: &'static [&'static str],
    /// Its options with a value.
    pub options: &'static [&'static str],
}

/// The arguments a command was given.
#[derive(Debug, Default)]
pub struct Args {
    operands: Vec<OsString>,
    flags: Vec<String>,
    options: Vec<(String, OsString)>,
}

impl Shape {
    /// Whether help is asked for, whatever else is given; an option's value asks for none.
    pub fn asks_for_help(&self, given: &[OsString]) -> bool {
        let mut rest = given.iter().take_while(|&argument| argument != "--");
        while let Some(argument) = rest.next() {
            if argument == "--help" || argument == "-h" {
                return true;
            }
            if self.options.iter().any(|option| argument == option) {
                rest.next();
            }
        }
        false
    }

    /// Sorts arguments into operands, flags and options.
    pub fn parse(&self, given: &[OsString]) -> Result<Args, Failure> {
        let mut args = Args::default();
        let mut rest = given.iter();
        while let Some(argument) = rest.next() {
            if argument == "--" {
                args.operands.extend(rest.by_ref().cloned());
            } else if is_operand(argument) {
                args.operands.push(argument.clone());
            } else {
                self.take(argument, rest.by_ref(), &mut args)?;
            }
        }
        self.count_operands(&args)?;
        Ok(args)
    }

    /// Takes a flag, or an option and its value, which may stand after `=` or as the next argument.
    fn take<'a>(&self, argument: &OsStr, mut rest: impl Iterator<Item = &'a OsString>, args: &mut Args) -> Result<(), Failure> {
        let (name, value) = split(argument);
        let name = name.to_str().ok_or_else(|| unknown(argument))?;
        if value.is_none() && (name == "--json" || self.flags.contains(&name)) {
            args.flags.push(name.to_string());
            return Ok(());
        }
        if !self.options.contains(&name) {
            return Err(unknown(argument));
        }
        let value = value.or_else(|| rest.next().cloned());
        let value = value.ok_or_else(|| Failure::usage(format!("{} needs a value", name)))?;
        if args.option(name).is_some() {
            return Err(Failure::usage(format!("{} is given twice", name)));
        }
        args.options.push((name.to_string(), value));
        Ok(())
    }

    fn count_operands(&self, args: &Args) -> Result<(), Failure> {
        if let Some(missing) = self.operands.get(args.operands.len()) {
            return Err(Failure::usage(format!("{} is missing", missing)));
        }
        match args.operands.get(self.operands.len()) {
            Some(extra) => Err(Failure::usage(format!(
                "{:?} is one argument too many",
                extra.to_string_lossy()
            ))),
            None => Ok(()),
        }
    }
}

/// Name and value of an argument `NAME=VALUE`, whose value may be any bytes.
fn split(argument: &OsStr) -> (&OsStr, Option<OsString>) {
    let bytes = argument.as_bytes();
    match bytes.iter().position(|&byte| byte == b'=') {
        Some(at) => {
            let value = OsStr::from_bytes(&bytes[at + 1..]);
            (OsStr::from_bytes(&bytes[..at]), Some(value.to_os_string()))
        }
        None => (argument, None),
    }
}

/// A lone `-` is an operand, which stands for standard input, and so is a negative number, which no command takes.
fn is_operand(argument: &OsStr) -> bool {
    let text = argument.to_string_lossy();
    match text.strip_prefix('-') {
        Some(rest) => rest.is_empty() || rest.starts_with(|first: char| first.is_ascii_digit()),
        None => true,
    }
}

fn unknown(argument: &OsStr) -> Failure {
    Failure::usage(format!("no option {:?}", argument.to_string_lossy()))
}

impl Args {
    /// Operand `i`; parsing has counted them.
    pub fn operand(&self, i: usize) -> &OsStr {
        &self.operands[i]
    }

    /// Operand `i` as a number.
    pub fn number_operand(&self, i: usize, name: &str) -> Result<usize, Failure> {
        number(name, self.operand(i))
    }

    /// Whether a flag is given.
    pub fn flag(&self, name: &str) -> bool {
        self.flags.iter().any(|flag| flag == name)
    }

    /// Whether JSON is asked for.
    pub fn json(&self) -> bool {
        self.flag("--json")
    }

    /// An option's value, where it is given.
    pub fn option(&self, name: &str) -> Option<&OsStr> {
        let (_, value) = self.options.iter().find(|(option, _)| option == name)?;
        Some(value)
    }

    /// An option's value as a number; none for a word that stands for all.
    pub fn number_or(&self, name: &str, all: &str) -> Result<Option<usize>, Failure> {
        match self.option(name) {
            Some(value) if value == all => Ok(None),
            Some(value) => number_of(name, value, &format!("a whole number or {}", all)).map(Some),
            None => Ok(None),
        }
    }

    /// An option's value as a number, where it is given.
    pub fn number_option(&self, name: &str) -> Result<Option<usize>, Failure> {
        self.option(name).map(|value| number(name, value)).transpose()
    }
}

fn number(name: &str, value: &OsStr) -> Result<usize, Failure> {
    number_of(name, value, "a whole number")
}

/// A value as a number; `wanted` says what it may be.
fn number_of(name: &str, value: &OsStr, wanted: &str) -> Result<usize, Failure> {
    let text = value.to_string_lossy();
    let digits = !text.is_empty() && text.bytes().all(|byte| byte.is_ascii_digit());
    match text.parse() {
        Ok(number) if digits => Ok(number),
        _ if digits => Err(Failure::usage(format!("{} is too great: {}", name, text))),
        _ => Err(Failure::usage(format!("{} takes {}, not {:?}", name, wanted, text))),
    }
}

#[cfg(test)]
mod tests {
    use super::*;

    const SHAPE: Shape = Shape {
        operands: &["FILE"],
        flags: &["--signed"],
        options: &["--bits"],
    };

    fn parse(given: &[&str]) -> Result<Args, Failure> {
        let given: Vec<OsString> = given.iter().map(OsString::from).collect();
        SHAPE.parse(&given)
    }

    #[test]
    fn options_may_stand_anywhere_and_take_either_form() {
        for given in [
            &["--bits", "9", "a", "--signed"][..],
            &["a", "--signed", "--bits=9"],
            &["--signed", "--bits=9", "--", "a"],
        ] {
            let args = parse(given).unwrap();
            assert_eq!(args.operand(0), "a");
            assert_eq!(args.number_option("--bits").unwrap(), Some(9));
            assert!(args.flag("--signed") && !args.json());
        }
    }

    #[test]
    fn wrong_arguments_are_refused() {
        let wrong: [&[&str]; 7] = [
            &[],
            &["a", "b"],
            &["a", "--bits"],
            &["a", "--other"],
            &["a", "--signed=1"],
            &["a", "--bits", "1", "--bits", "2"],
            &["a", "-x"],
        ];
        for given in wrong {
            assert!(parse(given).is_err(), "{:?}", given);
        }
    }

    #[test]
    fn numbers_are_whole_and_not_negative() {
        for value in ["", "-1", "+1", "1.5", "x", "99999999999999999999999"] {
            assert!(number("N", OsStr::new(value)).is_err(), "{:?}", value);
        }
        let too_great = number("N", OsStr::new("99999999999999999999999")).unwrap_err();
        assert!(too_great.in_words().starts_with("N is too great: 999"));
        assert_eq!(number("N", OsStr::new("65536")).unwrap(), 65536);
    }

    #[test]
    fn a_value_asks_for_no_help() {
        let asks = |given: &[&str]| SHAPE.asks_for_help(&given.iter().map(OsString::from).collect::<Vec<_>>());
        assert!(asks(&["a", "-h"]) && asks(&["--bits", "3", "--help"]));
        assert!(!asks(&["--bits", "-h"]) && !asks(&["--", "--help"]) && !asks(&["a", "--bits=-h"]));
    }

    #[test]
    fn a_dash_is_an_operand_and_dashes_end_options() {
        assert_eq!(parse(&["-"]).unwrap().operand(0), "-");
        assert_eq!(parse(&["--", "--bits"]).unwrap().operand(0), "--bits");
    }
}
