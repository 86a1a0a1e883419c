//! The report of a part, line by line (docs/REPORT_FORMAT.md).

use std::fs::File;
use std::io::{BufRead, BufReader};
use std::path::PathBuf;

use programs::{printable, Failure};
use reports::{count, Capture, LONGEST_LINE};

use crate::record_numbers::RecordNumbers;
use crate::split_folder::failed;

/// So many bytes are read at a time.
const PIECE: usize = 65_536;

/// A line with the number in the whole by which it is sorted.
pub type Numbered = (u64, Vec<u8>);

/// A report that is read forward, with the line that comes next at hand.
pub struct PartReport {
    path: PathBuf,
    pub capture: PathBuf,
    pub numbers: RecordNumbers,
    file: BufReader<File>,
    place: u64,
    /// Empty at the end; else with its line feed.
    pub line: Vec<u8>,
}

impl PartReport {
    pub fn open(path: PathBuf, capture: PathBuf, numbers: RecordNumbers) -> Result<PartReport, Failure> {
        let file = File::open(&path).map_err(|error| failed(&path, &error))?;
        let file = BufReader::with_capacity(PIECE, file);
        let mut report = PartReport { path, capture, numbers, file, place: 0, line: Vec::new() };
        report.advance()?;
        Ok(report)
    }

    /// Goes to the next line.
    pub fn advance(&mut self) -> Result<(), Failure> {
        self.place += 1;
        self.line.clear();
        loop {
            let piece = self.file.fill_buf().map_err(|error| failed(&self.path, &error))?;
            let end = memchr::memchr(b'\n', piece).map(|at| at + 1);
            let taken = end.unwrap_or(piece.len());
            self.line.extend_from_slice(&piece[..taken]);
            self.file.consume(taken);
            let is_whole = end.is_some() || self.line.is_empty();
            if self.line.len() > LONGEST_LINE || taken == 0 && !is_whole {
                return Err(self.broken());
            }
            if is_whole || taken == 0 {
                return Ok(());
            }
        }
    }

    /// The line at hand is none that stands there in a report.
    pub fn broken(&self) -> Failure {
        Failure::Refused(format!("{}: line {} is not one of a whole report", printable(&self.path), self.place))
    }

    /// The line at hand without its line feed, where it is text.
    pub fn text(&self) -> Option<&str> {
        std::str::from_utf8(&self.line).ok()?.strip_suffix('\n')
    }

    /// The counts of the first line (section 1).
    pub fn head(&mut self) -> Result<Capture, Failure> {
        let head = self.text().and_then(Capture::of).ok_or_else(|| self.broken())?;
        if !matches!(self.numbers.count.checked_sub(head.records), Some(0 | 1)) {
            let path = printable(&self.path);
            let has = count(head.records, "record");
            let why = format!("{path} is not the report of this part: it has {has}");
            return Err(Failure::Refused(why));
        }
        self.advance()?;
        Ok(head)
    }

    /// The next line of a record that was passed over (section 2), with its record's number in the whole.
    pub fn passed_over(&mut self) -> Result<Option<Numbered>, Failure> {
        if self.line.starts_with(b"record ") && !self.line.ends_with(b" cut\n") {
            return self.renumbered().map(Some);
        }
        Ok(None)
    }

    /// The line of the record that the end of the capture cuts (section 3).
    pub fn cut(&mut self) -> Result<Option<Numbered>, Failure> {
        if self.line.starts_with(b"record ") {
            return self.renumbered().map(Some);
        }
        Ok(None)
    }

    /// A line `record N ..`, with its number in the whole.
    fn renumbered(&mut self) -> Result<Numbered, Failure> {
        let parsed = self.text().and_then(|text| {
            let (number, rest) = text.strip_prefix("record ")?.split_once(' ')?;
            Some((number.parse().ok()?, format!(" {rest}\n")))
        });
        let (record, rest): (u64, String) = parsed.ok_or_else(|| self.broken())?;
        let number = self.numbers.whole(record)?;
        self.advance()?;
        Ok((number, format!("record {number}{rest}").into_bytes()))
    }
}
