//! Why a capture could not be read.

use std::{fmt, io};

use crate::refusal::Refusal;

#[derive(Debug)]
pub enum Error {
    /// The capture is refused.
    Refused(Refusal),
    /// The system could not open or read it.
    Io(io::Error),
}

impl Error {
    /// The capture is refused, by this name of a refusal (docs/STATUS.md).
    pub fn refused(name: &'static str) -> Error {
        Error::Refused(Refusal::named(name))
    }
}

impl From<io::Error> for Error {
    fn from(error: io::Error) -> Error {
        Error::Io(error)
    }
}

impl fmt::Display for Error {
    fn fmt(&self, out: &mut fmt::Formatter<'_>) -> fmt::Result {
        match self {
            Error::Refused(refusal) => refusal.fmt(out),
            Error::Io(error) => error.fmt(out),
        }
    }
}

impl std::error::Error for Error {}
