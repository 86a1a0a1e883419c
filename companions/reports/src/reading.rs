//! Reads a report line by line: it may be large, so nothing is kept.

use std::fmt;
use std::io::{self, BufRead, Read};

use crate::lines::{Capture, Line};

/// No line of a report has more bytes.
pub const LONGEST_LINE: usize = 4096;

/// Why no more lines are read.
#[derive(Debug)]
pub enum ReadError {
    /// It is no report.
    NoReport,
    /// The line of this number is none of a report.
    NoLine(u64),
    Io(io::Error),
}

impl fmt::Display for ReadError {
    fn fmt(&self, to: &mut fmt::Formatter<'_>) -> fmt::Result {
        match self {
            ReadError::NoReport => to.write_str("not a report of h2audit"),
            ReadError::NoLine(number) => write!(to, "line {number} is no line of a report"),
            ReadError::Io(error) => error.fmt(to),
        }
    }
}

impl From<io::Error> for ReadError {
    fn from(error: io::Error) -> ReadError {
        ReadError::Io(error)
    }
}

/// Reads the next line of at most so many bytes, with its line feed if it has one, and nothing at the end. A longer one
/// comes in pieces.
pub fn read_line(source: &mut impl BufRead, line: &mut Vec<u8>, most: usize) -> io::Result<()> {
    line.clear();
    source.take(most as u64).read_until(b'\n', line).map(drop)
}

/// The lines of a report.
pub struct Reader<R> {
    source: R,
    line: Vec<u8>,
    number: u64,
    has_connection: bool,
}

impl<R: BufRead> Reader<R> {
    pub fn new(source: R) -> Reader<R> {
        Reader { source, line: Vec::new(), number: 0, has_connection: false }
    }

    /// What the next line says; none at the end.
    pub fn next_line(&mut self) -> Result<Option<Line>, ReadError> {
        read_line(&mut self.source, &mut self.line, LONGEST_LINE + 1)?;
        if self.line.is_empty() {
            return if self.number == 0 { Err(ReadError::NoReport) } else { Ok(None) };
        }
        self.number += 1;
        let text = std::str::from_utf8(&self.line).ok().filter(|text| text.is_ascii());
        let text = text.ok_or(ReadError::NoReport)?.trim_end_matches(['\r', '\n']);
        if self.number == 1 {
            return Capture::of(text).map(|capture| Some(Line::Capture(capture))).ok_or(ReadError::NoReport);
        }
        let line = Line::of(text).filter(|line| self.has_connection || !line.is_of_connection());
        self.has_connection |= matches!(line, Some(Line::Opening(_)));
        line.map(Some).ok_or(ReadError::NoLine(self.number))
    }
}
