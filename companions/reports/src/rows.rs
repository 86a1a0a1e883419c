//! A report as rows for a database: a line of JSON for each.
//!
//! A line is a list: the name of a table, and the values of its columns after the capture, in the order of
//! h2audit/fleet/schema.sql. The report comes in pieces, and of it one line and the connection of that line are kept.

use std::collections::HashMap;
use std::io::{self, Write};

use crate::json::Json;
use crate::kinds::Side;
use crate::lines::{Capture, Finding, Flow, Form, Line, Opening, Stall};
use crate::reading::LONGEST_LINE;

/// The first line of all rows.
const FIRST_LINE: &[u8] = b"h2audit-rows 3\n";

/// The rows of a report on their way. A connection's row comes when all of its lines did.
pub struct Rows<'a> {
    json: Json<'a>,
    line: Vec<u8>,
    connection: Option<ConnectionLines>,
    unopened: u64,
    /// What became of the pair of endpoints whose line comes next.
    fate: Option<String>,
}

/// A connection whose lines come.
struct ConnectionLines {
    opening: Opening,
    joined: Option<&'static str>,
    /// The time of its last packet, where that is known: a stall that did not end lasts up to it.
    last: Option<i64>,
    flows: [Option<Flow>; 2],
    stopped_at: Option<u64>,
    /// The times of the stalls of each window that go on.
    begun: HashMap<(Side, u64), u64>,
    position: u64,
}

/// Writes a row.
pub fn row<'a>(json: &mut Json<'a>, values: impl FnOnce(&mut Json<'a>)) -> io::Result<()> {
    json.open(b'[');
    values(json);
    json.close(b']');
    json.line();
    json.give()
}

impl<'a> Rows<'a> {
    pub fn begin(to: &'a mut dyn Write) -> io::Result<Rows<'a>> {
        to.write_all(FIRST_LINE)?;
        Ok(Rows { json: Json::new(to), line: Vec::new(), connection: None, unopened: 0, fate: None })
    }

    /// Takes a piece of the report. What is no line of one makes no row.
    pub fn take(&mut self, piece: &[u8]) -> io::Result<()> {
        for part in piece.split_inclusive(|byte| *byte == b'\n') {
            self.line.extend_from_slice(part);
            if part.ends_with(b"\n") || self.line.len() > LONGEST_LINE {
                self.end_of_line()?;
            }
        }
        Ok(())
    }

    /// The connection whose lines come had its last packet at this time.
    pub fn last_packet(&mut self, nanos: Option<i64>) {
        if let Some(connection) = &mut self.connection {
            connection.last = nanos;
        }
    }

    /// The connection whose lines come was joined in this way.
    pub fn joined(&mut self, how: &'static str) {
        if let Some(connection) = &mut self.connection {
            connection.joined = Some(how);
        }
    }

    /// The pair of endpoints whose line comes next was joined, or not for some reason.
    pub fn fate(&mut self, fate: Option<String>) {
        self.fate = fate;
    }

    /// Ends the rows behind the report.
    pub fn finish(mut self) -> io::Result<()> {
        self.end_of_line()?;
        self.end_of_connection()?;
        self.json.finish()
    }

    fn end_of_line(&mut self) -> io::Result<()> {
        let mut octets = std::mem::take(&mut self.line);
        let text = std::str::from_utf8(&octets).unwrap_or_default().trim_end_matches('\n');
        let line = Capture::of(text).map(Line::Capture).or_else(|| Line::of(text));
        octets.clear();
        self.line = octets;
        line.map_or(Ok(()), |line| self.take_line(line))
    }

    fn take_line(&mut self, line: Line) -> io::Result<()> {
        match (line, &mut self.connection) {
            (Line::Capture(capture), _) => row(&mut self.json, |json| heads(json, &capture)),
            (Line::PassedOver { record, why }, _) => row(&mut self.json, |json| {
                json.word("passed_over");
                json.number(record);
                json.text(&why);
            }),
            (Line::Unopened { sender, receiver, segments }, _) => {
                self.unopened += 1;
                let (position, fate) = (self.unopened, self.fate.take());
                row(&mut self.json, |json| {
                    unopened(json, position, [&sender, &receiver], segments);
                    json.some_text(fate.as_deref());
                })
            }
            (Line::Opening(opening), _) => {
                self.end_of_connection()?;
                self.connection = Some(ConnectionLines::of(opening));
                Ok(())
            }
            (Line::Flow(flow), Some(connection)) => {
                let side = flow.side as usize;
                connection.flows[side] = Some(flow);
                Ok(())
            }
            (Line::Finding(one), Some(connection)) => {
                connection.note(&one);
                let (number, position) = (connection.opening.number, connection.position);
                row(&mut self.json, |json| finding(json, number, position, &one, None))
            }
            (Line::Stall(one), Some(connection)) => {
                connection.position += 1;
                let (number, position) = (connection.opening.number, connection.position);
                row(&mut self.json, |json| stall(json, number, position, &connection.stood_still(&one)))
            }
            (Line::Audited { stopped_at }, Some(connection)) => {
                connection.stopped_at = stopped_at;
                Ok(())
            }
            _ => Ok(()), // fragments are for people
        }
    }

    fn end_of_connection(&mut self) -> io::Result<()> {
        match self.connection.take() {
            Some(one) => row(&mut self.json, |json| {
                connection(json, &one.opening, &one.flows, one.stopped_at, one.joined);
            }),
            None => Ok(()),
        }
    }
}

impl ConnectionLines {
    fn of(opening: Opening) -> ConnectionLines {
        let flows = [None, None];
        ConnectionLines {
            opening,
            joined: None,
            last: None,
            flows,
            stopped_at: None,
            begun: HashMap::new(),
            position: 0,
        }
    }

    fn note(&mut self, finding: &Finding) {
        self.position += 1;
        if finding.kind.is_stall_begin() {
            self.begun.insert(finding.window(), finding.time);
        } else if finding.kind.is_stall_end() {
            self.begun.remove(&finding.window());
        }
    }

    fn stood_still(&self, one: &Stall) -> StoodStill {
        StoodStill {
            side: one.side,
            stream: one.stream,
            first: Some(one.begin),
            last: one.end.map(|(frame, _)| frame),
            nanos: match one.end {
                Some((_, nanos)) => Some(i128::from(nanos)),
                None => self.up_to_last_packet((one.side, one.stream)),
            },
            grade: None,
        }
    }

    /// How long a stall of this window lasts that did not end.
    fn up_to_last_packet(&self, window: (Side, u64)) -> Option<i128> {
        let begin = self.begun.get(&window)?;
        self.last.map(|last| i128::from(last) - i128::from(*begin))
    }
}

fn heads(json: &mut Json<'_>, capture: &Capture) {
    let Capture { records, segments, snapped, not_ipv4, fragments, not_tcp, refused } = *capture;
    json.word("captures");
    for count in [records, segments, snapped, not_ipv4, fragments, not_tcp, refused] {
        json.number(count);
    }
}

fn unopened(json: &mut Json<'_>, position: u64, ends: [&str; 2], segments: u64) {
    json.word("unopened");
    json.number(position);
    ends.iter().for_each(|end| json.text(end));
    json.number(segments);
}

/// Writes the row of a connection: what opened it, and how it was joined if it began before the capture.
pub fn connection(
    json: &mut Json<'_>,
    opening: &Opening,
    flows: &[Option<Flow>; 2],
    stopped_at: Option<u64>,
    joined: Option<&'static str>,
) {
    let Opening { number, client, server, record, form } = opening;
    json.word("connections");
    json.number(*number);
    json.text(client);
    json.text(server);
    json.number(*record);
    let frames = match form {
        Form::Http2 { frames } => Some(*frames),
        _ => None,
    };
    json.text(&form.words());
    json.some_number(frames);
    for flow in flows {
        json.some_number(flow.as_ref().map(|flow| flow.bytes));
        json.some_number(flow.as_ref().and_then(|flow| flow.gap));
        json.some_number(flow.as_ref().map(|flow| flow.tail));
        json.some_text(flow.as_ref().and_then(|flow| flow.end.as_deref()));
    }
    json.some_number(stopped_at);
    json.some_word(joined);
}

/// Writes the row of a finding, and how sure it is if something of its connection is inferred.
pub fn finding(json: &mut Json<'_>, connection: u64, position: u64, finding: &Finding, grade: Option<&'static str>) {
    json.word("findings");
    json.number(connection);
    json.number(position);
    json.number(finding.frame);
    json.number(finding.record);
    json.number(finding.time);
    json.word(finding.side.name());
    json.text(finding.kind.name());
    json.number(finding.stream);
    json.number(finding.value);
    json.word(finding.who_broke_it().map_or("nobody", Side::name));
    json.some_word(grade);
}

/// A stall: its frames, of which one that began before the capture has no first, and one that did not end no last.
#[derive(Clone, Copy, Debug)]
pub struct StoodStill {
    pub side: Side,
    pub stream: u64,
    pub first: Option<u64>,
    pub last: Option<u64>,
    pub nanos: Option<i128>,
    /// How sure it is, where something of its connection is inferred.
    pub grade: Option<&'static str>,
}

/// Writes the row of a stall.
pub fn stall(json: &mut Json<'_>, connection: u64, position: u64, one: &StoodStill) {
    json.word("stalls");
    json.number(connection);
    json.number(position);
    json.word(one.side.name());
    json.number(one.stream);
    json.some_number(one.first);
    json.some_number(one.last);
    json.some_number(one.nanos);
    json.word(one.side.other().name());
    json.some_word(one.grade);
}
