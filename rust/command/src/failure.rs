//! Why the command has no answer.

use std::ffi::OsStr;
use std::fmt::Display;

use zimgurav::{refused, Refusal};

/// The ranges of the fields of a record, or of a line of a cell list.
pub const RANGES: &str = "a contact is 0 to 15, a delay 1 to 63, rise and fall are 1 to 127, \
                          a peak is 0 to 65,535, an input's set is 1 to 15";

/// What is said on standard error, and what kind of failure it is.
#[derive(Debug)]
pub struct Failure {
    pub message: String,
    pub kind: Kind,
}

/// The kinds of failures.
#[derive(Clone, Copy, Debug, PartialEq, Eq)]
pub enum Kind {
    /// The library refused a call.
    Refused,
    /// The command was not called as its help says.
    Usage,
    /// A file could not be read or written, or says nothing that the command understands.
    File,
    /// The library does not answer what it should.
    Wrong,
}

impl Failure {
    /// A refusal: what is refused and at which place, what the refusal means, and what stands at the place.
    pub fn refused(of: &str, refusal: Refusal, place: Option<&str>, standing: &str) -> Self {
        let number = refusal.number;
        let place = place.map_or(String::new(), |name| {
            format!(" at {name} {}", refusal.place)
        });
        let meaning = refused::meaning(number).unwrap_or("no such refusal is known");
        let rule = rule(number).map_or(String::new(), |rule| format!("\n{rule}"));
        let message = format!("{of}: refused {number}{place}: {meaning}\n{standing}{rule}");
        Failure {
            message: indented(&message),
            kind: Kind::Refused,
        }
    }

    pub fn usage(message: impl Display) -> Self {
        Failure {
            message: message.to_string(),
            kind: Kind::Usage,
        }
    }

    /// An operand that nothing takes.
    pub fn extra(operand: &OsStr) -> Self {
        let operand = operand.display();
        Failure::usage(format_args!("{operand} is an operand too many"))
    }

    /// What is wrong with a file, by its name.
    pub fn file(name: &str, message: impl Display) -> Self {
        Failure {
            message: indented(&format!("{name}: {message}")),
            kind: Kind::File,
        }
    }

    pub fn wrong(message: impl Display) -> Self {
        Failure {
            message: message.to_string(),
            kind: Kind::Wrong,
        }
    }

    /// The status that the command exits with.
    pub fn status(&self) -> u8 {
        match self.kind {
            Kind::Refused | Kind::Wrong => 1,
            Kind::Usage | Kind::File => 2,
        }
    }
}

/// A message of which all lines but the first are indented.
fn indented(message: &str) -> String {
    message.replace('\n', "\n  ")
}

/// The rule that a record or a row breaks, where the meaning of the refusal does not say it.
fn rule(number: u64) -> Option<&'static str> {
    match number {
        refused::PIN_COUNT => Some("a NOT or BUF has 1 pin, any other gate 2 to 4"),
        refused::RANGE => Some(RANGES),
        _ => None,
    }
}
