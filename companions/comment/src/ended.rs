//! Why no commented capture is written.

use std::io;
use std::path::Path;

use captures::{Error, Refusal};
use programs::{printable, Failure};
use reports::maps::MapError;
use reports::ReadError;

pub enum Ended {
    Capture(Refusal),
    /// A report or a map that is refused, and why.
    Refused(String),
    Read(io::Error),
    Write(io::Error),
    Memory,
}

impl Ended {
    /// The capture is refused.
    pub fn refused(name: &'static str) -> Ended {
        Ended::Capture(Refusal::named(name))
    }

    pub fn report_refused(why: impl std::fmt::Display) -> Ended {
        Ended::Refused(format!("report refused: {why}"))
    }

    pub fn map_refused(why: impl std::fmt::Display) -> Ended {
        Ended::Refused(format!("map refused: {why}"))
    }

    /// As the failure of a program that was reading this file.
    pub fn of_input(self, name: &Path) -> Failure {
        match self {
            Ended::Capture(refusal) => Failure::Refused(refusal.of_file(&printable(name))),
            Ended::Refused(why) => Failure::Refused(why),
            Ended::Memory => Failure::Memory,
            Ended::Read(error) | Ended::Write(error) if name.as_os_str() == "-" => {
                Failure::from_io("standard input", &error)
            }
            Ended::Read(error) | Ended::Write(error) => Failure::of_file(name, &error),
        }
    }
}

impl From<Error> for Ended {
    fn from(error: Error) -> Ended {
        match error {
            Error::Refused(refusal) => Ended::Capture(refusal),
            Error::Io(error) => Ended::Read(error),
        }
    }
}

/// Captures, reports and maps are read by other errors; what is written ends with those of the system.
impl From<io::Error> for Ended {
    fn from(error: io::Error) -> Ended {
        Ended::Write(error)
    }
}

impl From<ReadError> for Ended {
    fn from(error: ReadError) -> Ended {
        match error {
            ReadError::Io(error) => Ended::Read(error),
            why => Ended::report_refused(why),
        }
    }
}

impl From<MapError> for Ended {
    fn from(error: MapError) -> Ended {
        match error {
            MapError::Io(error) => Ended::Read(error),
            why => Ended::map_refused(why),
        }
    }
}
