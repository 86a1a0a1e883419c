//! What the report of h2audit says of each connection.

use std::collections::HashMap;
use std::io::BufRead;

use import::RecordsOf;
use programs::Failure;
use reports::{Finding, Flow, Form, Line, Opening, ReadError, Reader, Side};

use crate::answer::Nanos;

/// An end of a stall: its frame, record and time, and the credit after it.
#[derive(Clone, Copy, Debug, PartialEq, Eq)]
pub struct StallAt {
    pub frame: u32,
    pub record: u64,
    pub time: Nanos,
    pub credit: i64,
}

/// A stall of a window: where it began and ended.
#[derive(Clone, Copy, Debug, PartialEq, Eq)]
pub struct Stalled {
    pub side: usize,
    pub stream: u32,
    pub begin: StallAt,
    pub end: Option<StallAt>,
}

/// One connection of the report.
#[derive(Debug)]
pub struct Audit {
    pub number: u64,
    /// The record that opened it.
    pub record: u64,
    pub form: Form,
    pub flows: Vec<Flow>,
    pub faults: Vec<Finding>,
    /// In the order of begins.
    pub stalls: Vec<Stalled>,
    pub stopped_at: Option<u32>,
    /// When that frame came, where the fault that stopped the audit is not among those that are told.
    pub stop: Option<Nanos>,
}

/// What h2audit wrote is no report of what was made.
pub fn broken(why: &str) -> Failure {
    Failure::Io(format!("the report is not about the capture that was made: {why}"))
}

/// All connections of a report.
#[allow(clippy::vec_box)] // each is kept until its frames come, and all others before it go
pub type Audits = Vec<Box<Audit>>;

/// What is no report fails in some words.
pub fn read_audits(
    report: impl BufRead,
    records: &RecordsOf,
    not_read: fn(ReadError) -> Failure,
) -> Result<Audits, Failure> {
    let record_of = |reported: u64| records.of(reported).ok_or_else(|| broken("it has records that are not there"));
    let mut reader = Reader::new(report);
    let mut audits = Audits::new();
    // The stall of each window that goes on.
    let mut going_on = HashMap::new();
    while let Some(line) = reader.next_line().map_err(not_read)? {
        match (line, audits.last_mut()) {
            (Line::Opening(opening), _) => {
                going_on.clear();
                audits.push(Box::new(Audit::of(Opening { record: record_of(opening.record)?, ..opening })));
            }
            (Line::Flow(flow), Some(audit)) => audit.flows.push(flow),
            (Line::Finding(finding), Some(audit)) => {
                audit.add(Finding { record: record_of(finding.record)?, ..finding }, &mut going_on)?;
            }
            (Line::Audited { stopped_at: Some(frame) }, Some(audit)) => audit.stopped_at = Some(frame_of(frame)?),
            _ => {} // stalls are known by their ends
        }
    }
    Ok(audits)
}

/// Why what h2audit said is not read.
pub fn of_h2audit(error: ReadError) -> Failure {
    match error {
        ReadError::Io(error) => Failure::from_io("h2audit", &error),
        _ => Failure::Io("h2audit: what it said is no report".to_string()),
    }
}

fn frame_of(number: u64) -> Result<u32, Failure> {
    u32::try_from(number).map_err(|_| broken("it has frames that are not there"))
}

impl Audit {
    fn of(opening: Opening) -> Audit {
        Audit {
            number: opening.number,
            record: opening.record,
            form: opening.form,
            flows: Vec::with_capacity(2),
            faults: Vec::new(),
            stalls: Vec::new(),
            stopped_at: None,
            stop: None,
        }
    }

    /// The offsets from which on bytes of a side are missing.
    pub fn gaps(&self) -> impl Iterator<Item = (Side, u64)> + '_ {
        self.flows.iter().filter_map(|flow| Some((flow.side, flow.gap?)))
    }

    /// How many frames it has, where it is of HTTP/2.
    pub fn frames(&self) -> Option<u64> {
        match self.form {
            Form::Http2 { frames } => Some(frames),
            _ => None,
        }
    }

    fn add(&mut self, finding: Finding, going_on: &mut HashMap<(usize, u32), usize>) -> Result<(), Failure> {
        if reports::is_fault(finding.kind.name()) {
            self.faults.push(finding);
            return Ok(());
        }
        if finding.kind.is_credit() {
            return Ok(());
        }
        let time = Nanos::try_from(finding.time).ok().filter(|time| *time < Nanos::MAX);
        let place = StallAt {
            frame: frame_of(finding.frame)?,
            record: finding.record,
            time: time.ok_or_else(|| broken("it has times that are not there"))?,
            credit: finding.value,
        };
        let (side, stream) = (finding.side as usize, frame_of(finding.stream)?);
        if finding.kind.is_stall_begin() {
            going_on.insert((side, stream), self.stalls.len());
            self.stalls.push(Stalled { side, stream, begin: place, end: None });
        } else if let Some(stalled) = going_on.remove(&(side, stream)).and_then(|at| self.stalls.get_mut(at)) {
            stalled.end = Some(place);
        }
        Ok(())
    }
}

#[cfg(test)]
mod tests {
    use super::*;

    const FRONT: &str = "capture records 9 segments 9 snapped 0 not-ipv4 0 fragments 0 not-tcp 0 refused 0\n\
        connection 1 client 10.0.0.1:1 server 10.0.0.2:2 record 1 http2 frames 9\n";

    #[test]
    fn stalls_have_two_ends() {
        let text = format!(
            "{FRONT}flow client bytes 9 gap 4 tail 0\n\
             frame 3 record 4 time 5 server stream-stall-begin stream 1 value -7\n\
             frame 4 record 5 time 6 server connection-stall-begin stream 0 value 0\n\
             frame 6 record 7 time 8 server stream-stall-end stream 1 value 9\n\
             frame 7 record 8 time 9 client push stream 1 value 0\n\
             audit stopped at frame 7\n"
        );
        let audits = read_audits(text.as_bytes(), &RecordsOf::same(), of_h2audit).expect("a report");
        let audit = &audits[0];
        let ends: Vec<_> = audit.stalls.iter().map(|one| (one.begin.frame, one.end.map(|end| end.frame))).collect();
        assert_eq!(ends, [(3, Some(6)), (4, None)]);
        assert_eq!((audit.stopped_at, audit.faults.len(), audit.frames()), (Some(7), 1, Some(9)));
        assert_eq!((audit.gaps().next(), audit.stalls[0].begin.credit), (Some((Side::Client, 4)), -7));
    }

    #[test]
    fn what_is_no_report() {
        assert!(read_audits(&b""[..], &RecordsOf::same(), of_h2audit).is_err());
        let text =
            format!("{FRONT}frame 3 record 4 time 18446744073709551615 server stream-stall-begin stream 1 value 0\n");
        assert!(read_audits(text.as_bytes(), &RecordsOf::same(), of_h2audit).is_err());
    }
}
