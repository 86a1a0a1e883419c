//! The lines of a connection (docs/REPORT_FORMAT.md, section 3), from the report of a part into that of the whole.

use std::io::{self, Write};

use programs::Failure;
use reports::{finding_in, is_fault, Form, Line, Opening};

use crate::merging::MergeError;
use crate::part_report::PartReport;

const CONNECTION: &[u8] = b"connection ";
/// Lines that name no record.
const KNOWN: [&[u8]; 3] = [b"flow ", b"stall ", b"audit "];

/// The opening of the connection whose line is at hand, and the number of its record in the whole.
pub fn opening(report: &mut PartReport) -> Result<(u64, Opening), Failure> {
    match report.text().and_then(Line::of) {
        Some(Line::Opening(opening)) => Ok((report.numbers.whole(opening.record)?, opening)),
        _ => Err(report.broken()),
    }
}

/// Writes connections, with the numbers that they and their records have in the whole.
pub struct Writer<'a, W> {
    output: &'a mut W,
    number: u64,
    pub has_faults: bool,
}

impl<'a, W: Write> Writer<'a, W> {
    pub fn new(output: &'a mut W) -> Writer<'a, W> {
        Writer { output, number: 0, has_faults: false }
    }

    /// Writes the connection whose line is at hand, with its record in the whole, and goes to that of the next.
    pub fn write(&mut self, report: &mut PartReport, record: u64, opening: &Opening) -> Result<(), MergeError> {
        self.number += 1;
        let (client, server) = (&opening.client, &opening.server);
        write!(self.output, "connection {} client {client} server {server} record {record} ", self.number)?;
        let said = report.line.splitn(9, |byte| *byte == b' ').nth(8).ok_or_else(|| report.broken())?;
        self.output.write_all(said)?;
        let end: &[u8] = if matches!(opening.form, Form::Http2 { .. }) { b"audit " } else { b"flow " };
        let mut is_whole = false;
        report.advance()?;
        while !report.line.is_empty() && !report.line.starts_with(CONNECTION) {
            is_whole = report.line.starts_with(end);
            if report.line.starts_with(b"frame ") {
                self.finding(report)?;
            } else {
                self.other(report)?;
            }
            report.advance()?;
        }
        if is_whole {
            Ok(())
        } else {
            Err(report.broken().into())
        }
    }

    /// Writes a line that names no record. If one of a later version did, it would need a number of the whole.
    fn other(&mut self, report: &PartReport) -> Result<(), MergeError> {
        let is_known = KNOWN.iter().any(|word| report.line.starts_with(word));
        let names_record = !is_known && memchr::memmem::find(&report.line, b" record ").is_some();
        if !report.line.is_ascii() || names_record {
            return Err(report.broken().into());
        }
        self.output.write_all(&report.line)?;
        Ok(())
    }

    /// Writes a finding, with its record's number in the whole.
    fn finding(&mut self, report: &mut PartReport) -> Result<(), MergeError> {
        let found = report.text().and_then(finding_in).map(|line| (line.record, line.record_at, is_fault(line.kind)));
        let (record, digits, is_fault) = found.ok_or_else(|| report.broken())?;
        self.has_faults |= is_fault;
        let number = report.numbers.whole(record)?;
        self.output.write_all(&report.line[..digits.start])?;
        self.output.write_all(itoa::Buffer::new().format(number).as_bytes())?;
        self.output.write_all(&report.line[digits.end..])?;
        Ok(())
    }
}

impl From<io::Error> for MergeError {
    fn from(error: io::Error) -> MergeError {
        MergeError::Write(error)
    }
}

impl From<Failure> for MergeError {
    fn from(failure: Failure) -> MergeError {
        MergeError::Part(failure)
    }
}
