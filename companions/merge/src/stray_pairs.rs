//! Pairs of endpoints that were never seen to open a connection (docs/REPORT_FORMAT.md, section 2).
//!
//! Their lines stand in the order in which the first segments of the pairs appear, and do not say which records these
//! are. A walk over the part's capture finds them: it looks for the first segment from the sender to the receiver of
//! one line behind that of the line before.

use std::net::SocketAddrV4;

use captures::{Ends, Error};
use programs::Failure;
use reports::Line;

use crate::part_report::{Numbered, PartReport};
use crate::part_segments::PartSegments;
use crate::split_folder::failed;

/// The walk over a part's capture, which begins with the first such line.
#[derive(Default)]
pub struct StrayPairs {
    segments: Option<PartSegments>,
}

impl StrayPairs {
    /// The next line of such a pair, with the number of its first segment's record in the whole.
    pub fn next(&mut self, report: &mut PartReport) -> Result<Option<Numbered>, Failure> {
        if !report.line.starts_with(b"unopened ") {
            self.segments = None;
            return Ok(None);
        }
        let segments = match &mut self.segments {
            Some(segments) => segments,
            none => none.insert(PartSegments::open(&report.capture)?),
        };
        let ends = match report.text().and_then(Line::of) {
            Some(Line::Unopened { sender, receiver, .. }) => ends_of(&sender, &receiver),
            _ => None,
        };
        let found = segments.find(ends.ok_or_else(|| report.broken())?).map_err(|error| match error {
            Error::Io(error) => failed(&report.capture, &error),
            Error::Refused(_) => report.broken(),
        })?;
        let number = report.numbers.whole(found.ok_or_else(|| report.broken())?)?;
        let line = report.line.clone();
        report.advance()?;
        Ok(Some((number, line)))
    }
}

/// The ends of what the one sends to the other, as headers have them.
fn ends_of(sender: &str, receiver: &str) -> Option<Ends> {
    let (sender, receiver): (SocketAddrV4, SocketAddrV4) = (sender.parse().ok()?, receiver.parse().ok()?);
    let addresses = [sender.ip().octets(), receiver.ip().octets()].concat();
    let ports = [sender.port().to_be_bytes(), receiver.port().to_be_bytes()].concat();
    [addresses, ports].concat().try_into().ok()
}
