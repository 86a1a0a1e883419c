//! Merges the reports of parts, section by section, in the order of docs/REPORT_FORMAT.md.
//!
//! Nothing is kept but a piece of each report: records, pairs and connections of a part stand in the order of the
//! whole already, so that each section is a merge of sorted lists.

use std::cmp::Reverse;
use std::collections::BinaryHeap;
use std::io::{self, Write};

use programs::Failure;
use reports::{Capture, Opening};

use crate::connections::{opening, Writer};
use crate::part_report::{Numbered, PartReport};
use crate::stray_pairs::StrayPairs;

/// Why no report of the whole was written, or not all of it.
pub enum MergeError {
    /// A part is missing or broken, or could not be read.
    Part(Failure),
    Write(io::Error),
}

/// Writes the report of the whole, and answers whether it shows a fault.
pub fn merge_reports(reports: &mut [PartReport], output: &mut impl Write) -> Result<bool, MergeError> {
    output.write_all(head(reports)?.line().as_bytes())?;
    merge_lines(reports, output, |_, report| report.passed_over())?;
    let mut cut = Vec::new();
    for report in reports.iter_mut() {
        cut.extend(report.cut()?);
    }
    cut.sort();
    for (_, line) in cut {
        output.write_all(&line)?;
    }
    let mut pairs: Vec<StrayPairs> = reports.iter().map(|_| StrayPairs::default()).collect();
    merge_lines(reports, output, |index, report| pairs[index].next(report))?;
    write_connections(reports, output)
}

/// The first line: each count is the sum of those of the parts, since a record is in one part.
fn head(reports: &mut [PartReport]) -> Result<Capture, Failure> {
    let mut sum = Capture::default();
    for report in reports {
        sum = sum.plus(&report.head()?).ok_or_else(|| report.broken())?;
    }
    Ok(sum)
}

/// Writes the lines of one section, in the order of their records.
fn merge_lines(
    reports: &mut [PartReport],
    output: &mut impl Write,
    mut next: impl FnMut(usize, &mut PartReport) -> Result<Option<Numbered>, Failure>,
) -> Result<(), MergeError> {
    let mut heap = BinaryHeap::new();
    for (index, report) in reports.iter_mut().enumerate() {
        heap.extend(next(index, report)?.map(|(number, line)| Reverse((number, line, index))));
    }
    while let Some(Reverse((_, line, index))) = heap.pop() {
        output.write_all(&line)?;
        heap.extend(next(index, &mut reports[index])?.map(|(number, line)| Reverse((number, line, index))));
    }
    Ok(())
}

/// Writes the connections in the order of their openings (section 5), numbered anew.
fn write_connections(reports: &mut [PartReport], output: &mut impl Write) -> Result<bool, MergeError> {
    let mut writer = Writer::new(output);
    let (mut heap, mut openings) = (BinaryHeap::new(), Vec::new());
    for (index, report) in reports.iter_mut().enumerate() {
        openings.push(next_opening(report)?);
        heap.extend(openings[index].as_ref().map(|(record, _)| Reverse((*record, index))));
    }
    while let Some(Reverse((_, index))) = heap.pop() {
        let report = &mut reports[index];
        if let Some((record, opening)) = openings[index].take() {
            writer.write(report, record, &opening)?;
        }
        openings[index] = next_opening(report)?;
        heap.extend(openings[index].as_ref().map(|(record, _)| Reverse((*record, index))));
    }
    Ok(writer.has_faults)
}

/// The connection that comes next in a report, with its record in the whole.
fn next_opening(report: &mut PartReport) -> Result<Option<(u64, Opening)>, Failure> {
    match report.line.is_empty() {
        true => Ok(None),
        false => opening(report).map(Some),
    }
}
