//! Why a program ends without what it was asked for, and by which status (docs/STATUS.md).

use std::io;
use std::path::Path;

use crate::messages::printable;

/// What ends a program early. Each has one line on standard error.
#[derive(Debug)]
pub enum Failure {
    /// The command line is invalid.
    Usage(String),
    /// A capture, a report or a map is refused.
    Refused(String),
    /// A file could not be read or written, or a program could not be run.
    Io(String),
    /// There was not enough memory.
    Memory,
    /// Nobody reads standard output any more, as behind `| head`. It ends the program by SIGPIPE, without a word.
    Unread,
}

/// The status of a program that did what it was asked for.
pub type Outcome = Result<i32, Failure>;

impl Failure {
    pub fn status(&self) -> i32 {
        match self {
            Failure::Usage(_) => 2,
            Failure::Refused(_) => 3,
            Failure::Io(_) => 4,
            Failure::Memory => 5,
            Failure::Unread => 141,
        }
    }

    pub fn message(&self) -> &str {
        match self {
            Failure::Usage(why) | Failure::Refused(why) | Failure::Io(why) => why,
            Failure::Memory => "out of memory",
            Failure::Unread => "nobody reads standard output",
        }
    }

    /// Standard output could not be written.
    pub fn of_output(error: &io::Error) -> Failure {
        match error.kind() {
            io::ErrorKind::BrokenPipe => Failure::Unread,
            _ => Failure::from_io("standard output", error),
        }
    }

    /// A file of this name could not be read or written.
    pub fn of_file(path: impl AsRef<Path>, error: &io::Error) -> Failure {
        Failure::from_io(printable(path.as_ref()), error)
    }

    /// What could not be read or written, as messages name it.
    pub fn from_io(what: impl AsRef<str>, error: &io::Error) -> Failure {
        if error.kind() == io::ErrorKind::OutOfMemory {
            return Failure::Memory;
        }
        Failure::Io(format!("{}: {}", what.as_ref(), io_reason(error)))
    }
}

/// The system's words for an error, without its number.
pub fn io_reason(error: &io::Error) -> String {
    let text = error.to_string();
    match text.rfind(" (os error ") {
        Some(end) => text[..end].to_string(),
        None => text,
    }
}
