//! Why a command ends early: wrong arguments, files, output that cannot be written, a refusal.

use std::io::{self, ErrorKind};

use avsplus::{Reason, Refused};

/// What a command that ended came to; both have an exit status.
#[derive(Debug, Clone, Copy, PartialEq, Eq)]
pub enum Status {
    /// Filed, or done.
    Done,
    /// The recording or payload is refused.
    Refused,
}

/// Why a command ended early.
#[derive(Debug)]
pub enum Failure {
    /// The arguments are wrong: in what way, and the call that prints help on them.
    Usage { message: String, help: String },
    /// A file cannot be read or written, or the library is another one.
    Trouble(String),
    /// Standard output cannot be written.
    Output(io::Error),
    /// The library refuses what it was asked about.
    Refused(Refusal),
}

/// What a command that writes as it goes comes to.
pub type Written = Result<(), Failure>;

impl Failure {
    /// The arguments are wrong.
    pub fn usage(message: impl Into<String>) -> Failure {
        Failure::Usage {
            message: message.into(),
            help: "avsplus --help".to_string(),
        }
    }

    /// The same, pointing to a command's own help.
    pub fn of(self, command: &str) -> Failure {
        match self {
            Failure::Usage { message, .. } => Failure::Usage {
                message,
                help: format!("avsplus {} --help", command),
            },
            other => other,
        }
    }

    /// A reader who has seen enough.
    pub fn is_closed_pipe(&self) -> bool {
        matches!(self, Failure::Output(error) if error.kind() == ErrorKind::BrokenPipe)
    }

    /// In words, for standard error.
    pub fn in_words(&self) -> String {
        match self {
            Failure::Usage { message, help } => format!("{}; see {}", message, help),
            Failure::Trouble(message) => message.clone(),
            Failure::Output(error) => format!("cannot write standard output: {}", error),
            Failure::Refused(refusal) => refusal.in_words(),
        }
    }
}

impl From<io::Error> for Failure {
    fn from(error: io::Error) -> Failure {
        Failure::Output(error)
    }
}

impl From<Refused> for Failure {
    /// What is no refusal says that program and library do not fit: that is no answer about the recording.
    fn from(refused: Refused) -> Failure {
        match refused.reason.listed() {
            Some(_) => Failure::Refused(refused.into()),
            None => Failure::Trouble(format!("{}: {}", refused, refused.reason.meaning())),
        }
    }
}

/// A refusal of the library, and what it means here.
#[derive(Debug, Clone, PartialEq, Eq)]
pub struct Refusal {
    /// The library's own, with the byte of the recording and the bit of the body where it stands.
    pub refused: Refused,
    /// The bit of the payload where it stands, if it is one of a payload.
    pub place: Option<usize>,
    pub meaning: String,
}

impl From<Refused> for Refusal {
    fn from(refused: Refused) -> Refusal {
        Refusal {
            refused,
            place: None,
            meaning: refused.reason.meaning().into_owned(),
        }
    }
}

impl Refusal {
    pub fn reason(&self) -> Reason {
        self.refused.reason
    }

    /// The same at a bit of the payload.
    pub fn at_bit(self, place: usize) -> Refusal {
        Refusal {
            place: Some(place),
            ..self
        }
    }

    /// The same with what it means for this recording or payload.
    pub fn meaning(self, meaning: String) -> Refusal {
        Refusal { meaning, ..self }
    }

    /// Name, number, and where. What PAYLOAD OUT carries is in its meaning.
    pub fn answer(&self) -> String {
        match (self.reason().listed(), self.place) {
            (Some(listed), Some(place)) => format!("{} at bit {}", listed, place),
            (Some(listed), None) if self.reason().missing().is_some() => listed.to_string(),
            _ => self.refused.to_string(),
        }
    }

    /// The same, with what it means.
    pub fn in_words(&self) -> String {
        format!("{}: {}", self.answer(), self.meaning)
    }
}

#[cfg(test)]
mod tests {
    use avsplus::JudgedField;

    use super::*;

    #[test]
    fn a_library_that_does_not_fit_is_no_refusal() {
        for reason in [Reason::Unlisted(99), Reason::OtherInterface(2), Reason::Malformed] {
            assert!(
                matches!(Failure::from(Refused::from(reason)), Failure::Trouble(_)),
                "{:?}",
                reason
            );
        }
        let field = JudgedField::Rate;
        for reason in [
            Reason::NoCode,
            Reason::Marker { bit: 76 },
            Reason::Value,
            Reason::ValueOf { field, bit: 54 },
            Reason::PayloadOut { missing: 3 },
        ] {
            assert!(
                matches!(Failure::from(Refused::from(reason)), Failure::Refused(_)),
                "{:?}",
                reason
            );
        }
    }

    #[test]
    fn a_refusal_says_where_it_stands() {
        let field = JudgedField::Rate;
        let of_body = Refusal::from(Refused::from(Reason::ValueOf { field, bit: 54 }));
        assert_eq!(
            of_body.in_words(),
            "VALUE of rate (25) at bit 54 of the body: the frame rate code is not 1 to 8"
        );
        let of_payload = Refusal::from(Refused::from(Reason::Value)).at_bit(9);
        assert_eq!(of_payload.answer(), "VALUE (8) at bit 9");
    }

    #[test]
    fn missing_bits_are_said_once() {
        let refusal = Refusal::from(Refused::from(Reason::PayloadOut { missing: 3 }));
        let missing = "3 more bits were wanted than the payload holds";
        assert_eq!(refusal.in_words(), format!("PAYLOAD OUT (14): {}", missing));
        assert_eq!(
            refusal.at_bit(9).in_words(),
            format!("PAYLOAD OUT (14) at bit 9: {}", missing)
        );
    }
}
