//! What a report says of its connections: their findings, and the credit of their windows where it tells it.

use std::collections::HashMap;
use std::io::BufRead;

use programs::Failure;
use reports::{Capture, Finding, Flow, Form, Line, Note, Opening, Pairing, ReadError, Reader, Side};

use crate::answer::Nanos;
use crate::charts::{charted, ChartsSaid};
use crate::series::{Point, Room, Series};
use crate::windows::FIRST_CREDIT;

/// So many windows are shown, and so many points of all of them.
const MOST_WINDOWS: usize = 1 << 17;
const MOST_POINTS: usize = 1 << 20;

/// A whole report.
#[derive(Debug, Default)]
pub struct ReportSaid {
    pub counts: Capture,
    pub lines: u64,
    /// The record within which the capture ends.
    pub cut: Option<u64>,
    /// Pairs of endpoints with segments before any opening of theirs, and these segments.
    pub unopened: u64,
    pub unopened_segments: u64,
    pub connections: Vec<Reported>,
}

/// A connection of a report.
#[derive(Debug)]
pub struct Reported {
    pub opening: Opening,
    pub flows: Vec<Flow>,
    /// Stalls and faults.
    pub notes: Vec<Note>,
    /// The times of its first and of its last finding, and the frame of that.
    pub begin: Nanos,
    pub until: Nanos,
    pub last_frame: u64,
    pub stopped_at: Option<u64>,
    pub charts: ChartsSaid,
}

impl Reported {
    pub fn frames(&self) -> u64 {
        match self.opening.form {
            Form::Http2 { frames } => frames,
            _ => 0,
        }
    }
}

/// The lines of a connection, as they come.
struct Reading {
    said: Reported,
    has_findings: bool,
    pairing: Pairing,
    places: HashMap<(Side, u64), usize>,
    windows: Vec<((Side, u64), Series)>,
}

/// Reads a report. What is none is refused.
pub fn read_charts(report: impl BufRead) -> Result<ReportSaid, Failure> {
    let (mut reader, room, mut said) = (Reader::new(report), Room::new(MOST_POINTS), ReportSaid::default());
    let (mut reading, mut windows): (Option<Reading>, usize) = (None, 0);
    while let Some(line) = reader.next_line().map_err(unread)? {
        said.lines += 1;
        match (line, &mut reading) {
            (Line::Capture(counts), _) => said.counts = counts,
            (Line::PassedOver { record, why }, _) if why == "cut" => said.cut = Some(record),
            (Line::Unopened { segments, .. }, _) => {
                said.unopened += 1;
                said.unopened_segments = said.unopened_segments.saturating_add(segments);
            }
            (Line::Opening(opening), before) => {
                let ended = before.replace(Reading::of(opening));
                said.connections.extend(ended.map(|one| one.end(&room, &mut windows)));
            }
            (Line::Flow(flow), Some(one)) => one.said.flows.push(flow),
            (Line::Finding(finding), Some(one)) => one.take(finding, said.lines, &room)?,
            (Line::Audited { stopped_at }, Some(one)) => one.said.stopped_at = stopped_at,
            _ => {} // stalls are known by their ends, and other records by the counts of the first line
        }
    }
    said.connections.extend(reading.map(|one| one.end(&room, &mut windows)));
    Ok(said)
}

fn unread(error: ReadError) -> Failure {
    match error {
        ReadError::Io(error) => Failure::from_io("report", &error),
        other => refused(&other.to_string()),
    }
}

fn refused(why: &str) -> Failure {
    Failure::Refused(format!("report refused: {why}"))
}

impl Reading {
    fn of(opening: Opening) -> Reading {
        Reading {
            said: Reported {
                opening,
                flows: Vec::new(),
                notes: Vec::new(),
                begin: 0,
                until: 0,
                last_frame: 0,
                stopped_at: None,
                charts: ChartsSaid::default(),
            },
            has_findings: false,
            pairing: Pairing::default(),
            places: HashMap::new(),
            windows: Vec::new(),
        }
    }

    fn take(&mut self, finding: Finding, line: u64, room: &Room) -> Result<(), Failure> {
        let time = Nanos::try_from(finding.time).ok().filter(|_| i64::try_from(finding.frame).is_ok());
        let time = time.ok_or_else(|| refused(&format!("line {line} has a number that is too large")))?;
        if !self.has_findings {
            self.said.begin = time;
            self.has_findings = true;
        }
        if finding.frame < self.said.last_frame {
            return Err(refused(&format!("the frames of connection {} go back", self.said.opening.number)));
        }
        self.said.until = time;
        self.said.last_frame = finding.frame;
        let frame = finding.frame;
        let series = self.series(finding.window());
        if finding.kind.is_credit() {
            series.push(Point { frame, time, credit: finding.value }, room);
        } else {
            series.mark(frame, time);
            self.pairing.note(finding, &mut self.said.notes);
        }
        Ok(())
    }

    fn series(&mut self, window: (Side, u64)) -> &mut Series {
        let Reading { places, windows, .. } = self;
        let place = *places.entry(window).or_insert_with(|| {
            windows.push((window, if window.1 == 0 { Series::from(FIRST_CREDIT) } else { Series::default() }));
            windows.len() - 1
        });
        &mut windows[place].1
    }

    fn end(self, room: &Room, shown: &mut usize) -> Reported {
        let Reading { mut said, windows, .. } = self;
        let mut last_stalls = HashMap::new();
        for note in said.notes.iter().filter(|note| note.finding.kind.is_stall_begin()) {
            last_stalls.insert(note.finding.window(), note.other.is_none());
        }
        for (key, mut series) in windows.into_iter().filter(|one| one.1.last.is_some()) {
            if *shown >= MOST_WINDOWS {
                said.charts.others.count += 1;
                said.charts.others.add(series.least, series.greatest);
                continue;
            }
            *shown += 1;
            if key.1 == 0 {
                series.begin(Point { frame: 0, time: said.begin, credit: FIRST_CREDIT });
            }
            if key.1 == 0 || last_stalls.get(&key) == Some(&true) {
                series.stand(said.last_frame, said.until);
            }
            said.charts.windows.push(charted(key.0, key.1, series, room));
        }
        said
    }
}

#[cfg(test)]
mod tests {
    use super::*;

    const HEAD: &str = "capture records 9 segments 8 snapped 0 not-ipv4 0 fragments 0 not-tcp 0 refused 0\n";
    const OPENING: &str = "connection 1 client 10.0.0.1:1 server 10.0.0.2:2 record 1 http2 frames 9\n";

    fn read(lines: &str) -> Result<ReportSaid, String> {
        let text = format!("{HEAD}record 9 cut\nunopened 10.0.0.1:5 10.0.0.2:2 segments 3\n{OPENING}{lines}");
        read_charts(text.as_bytes()).map_err(|failure| failure.message().to_string())
    }

    fn line(frame: u64, kind: &str, stream: u64, value: i64) -> String {
        format!("frame {frame} record {frame} time {}0 server {kind} stream {stream} value {value}\n", frame)
    }

    fn points(one: &Reported, window: usize) -> Vec<(u64, Nanos, i64)> {
        one.charts.windows[window].points.iter().map(|point| (point.frame, point.time, point.credit)).collect()
    }

    #[test]
    fn windows_and_findings() {
        let lines = [
            line(2, "stream-credit", 1, 100),
            line(3, "stream-stall-begin", 1, 0),
            line(3, "connection-credit", 0, 65_435),
            line(3, "stream-credit", 1, 0),
            line(5, "after-end", 1, 0),
            line(7, "connection-credit", 0, 65_430),
        ];
        let said = read(&lines.concat()).expect("a report");
        let (one, counts) = (&said.connections[0], &said.counts);
        assert_eq!((said.lines, said.cut, said.unopened_segments, counts.segments), (10, Some(9), 3, 8));
        assert_eq!(points(one, 0), [(2, 20, 100), (3, 30, 0), (5, 50, 0), (7, 70, 0)]);
        assert_eq!(points(one, 1), [(0, 20, 65_535), (3, 30, 65_435), (7, 70, 65_430)]);
        let notes: Vec<_> = one.notes.iter().map(|note| (note.finding.kind.name(), note.other)).collect();
        assert_eq!(notes, [("stream-stall-begin", None), ("after-end", None)]);
        assert_eq!((one.begin, one.until, one.frames()), (20, 70, 9));
        let credit = &one.charts.windows[0];
        assert_eq!((credit.count, credit.least, credit.greatest, credit.last), (2, 0, 100, 0));
    }

    #[test]
    fn what_is_refused() {
        let back = line(5, "stream-credit", 1, 1) + &line(4, "stream-credit", 1, 2);
        assert_eq!(read(&back).err().as_deref(), Some("report refused: the frames of connection 1 go back"));
        let late = line(1, "after-end", 1, 0).replace("time 1", "time 999999999999999999");
        assert_eq!(read(&late).err().as_deref(), Some("report refused: line 5 has a number that is too large"));
        assert_eq!(read("frame\n").err().as_deref(), Some("report refused: line 5 is no line of a report"));
        assert!(read_charts(&b""[..]).is_err());
    }
}
