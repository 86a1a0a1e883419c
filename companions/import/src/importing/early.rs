//! What ends an import early.

use std::ffi::OsString;

use captures::{Error, Refusal, STANDARD_INPUT};
use programs::{printable, Failure};

use crate::sink::Problem;

pub(super) enum Early {
    Capture(Error),
    Problem(Problem),
}

impl From<Error> for Early {
    fn from(error: Error) -> Early {
        Early::Capture(error)
    }
}

impl From<Failure> for Early {
    fn from(failure: Failure) -> Early {
        Early::Problem(Problem::Failed(failure))
    }
}

impl Early {
    pub(super) fn failure(self, path: Option<&OsString>) -> Failure {
        match self {
            Early::Capture(Error::Refused(refusal)) => Failure::Refused(refused(&refusal, path)),
            Early::Capture(Error::Io(error)) => match path {
                Some(path) if path != STANDARD_INPUT => Failure::of_file(path, &error),
                _ => Failure::from_io("standard input", &error),
            },
            Early::Problem(Problem::BadTime) => Failure::Refused(refused(&Refusal::named("bad-time"), path)),
            Early::Problem(Problem::Failed(failure)) => failure,
        }
    }
}

/// What is said of a capture that is refused, with the file where it is known.
fn refused(refusal: &Refusal, path: Option<&OsString>) -> String {
    path.map_or_else(|| refusal.to_string(), |path| refusal.of_file(&printable(path)))
}
