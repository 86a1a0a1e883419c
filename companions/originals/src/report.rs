//! Brings a report of h2audit back to the packets and addresses of the original (docs/REPORT_FORMAT.md, "Reports of
//! h2audit-any").

use std::io::{self, BufRead, Read, Seek, Write};
use std::rc::Rc;

use programs::{temporary_failure, Failure, Output};
use reports::rows::Rows;
use reports::{finding_in, is_fault, read_line, Capture, Finding, Flow, Form, Line, Opening, Stall, LONGEST_LINE};

use crate::beginning::{Beginning, Behind, Claim};
use crate::original::{Became, Joined, Original, Unopened};

/// Why no report of the original was written, or not all of it.
pub enum Broken {
    /// What no h2audit would say, another program has said.
    NoReport,
    Read(io::Error),
    Write(io::Error),
    /// Rows could not be written.
    Rows(io::Error),
    /// What is said of packets that were passed over could not be read back.
    Temporary(io::Error),
}

impl Broken {
    /// Why there is none in this output, or none in that of rows.
    pub fn failure(&self, output: &Output, rows: Option<&Output>) -> Failure {
        match self {
            Broken::Rows(error) => rows.unwrap_or(output).failure(error),
            Broken::NoReport => no_report(),
            Broken::Read(error) => Failure::from_io("h2audit", error),
            Broken::Write(error) => output.failure(error),
            Broken::Temporary(error) => temporary_failure(error),
        }
    }
}

/// What h2audit said is none.
pub fn no_report() -> Failure {
    Failure::Io("h2audit: what it said is no report".to_string())
}

/// Writes is what the system does with a report; what is read has errors of its own.
impl From<io::Error> for Broken {
    fn from(error: io::Error) -> Broken {
        Broken::Write(error)
    }
}

/// What a report showed.
#[derive(Default)]
pub struct Shown {
    pub is_there: bool,
    pub has_faults: bool,
}

/// Writes the report of the original, and its rows where they are wanted, and answers what it shows.
pub fn bring_back<'a, W: Write>(
    source: impl BufRead,
    original: &'a mut Original,
    out: &'a mut W,
    rows: Option<&'a mut dyn Write>,
) -> Result<Shown, Broken> {
    let mut source = source;
    let mut line = Vec::new();
    let rows = rows.map(Rows::begin).transpose().map_err(Broken::Rows)?;
    let mut back =
        Back { original, out, rows, opening: None, is_left_out: false, beginning: None, shown: Shown::default() };
    loop {
        read_line(&mut source, &mut line, LONGEST_LINE + 1).map_err(Broken::Read)?;
        if line.is_empty() {
            return back.finish();
        }
        let text = std::str::from_utf8(&line).ok().filter(|text| text.is_ascii()).ok_or(Broken::NoReport)?;
        back.line(text)?;
    }
}

struct Back<'a, W> {
    original: &'a mut Original,
    out: &'a mut W,
    rows: Option<Rows<'a>>,
    /// The packet that opened the connection whose lines come.
    opening: Option<u64>,
    /// Whether that connection is left out, or something of it is inferred: then rows have it not.
    is_left_out: bool,
    beginning: Option<(Rc<Beginning>, Behind)>,
    shown: Shown,
}

impl<W: Write> Back<'_, W> {
    fn line(&mut self, text: &str) -> Result<(), Broken> {
        if !self.shown.is_there {
            return self.capture(text);
        }
        match text.split(' ').next() {
            Some("connection") => match Line::of(text.trim_end_matches('\n')) {
                Some(Line::Opening(opening)) => self.connection(&opening),
                _ => Err(Broken::NoReport),
            },
            // What is said of these stands there already.
            Some("record") if self.original.is_audited => Ok(()),
            _ if self.is_left_out => Ok(()),
            Some("frame") => self.finding(text),
            Some("stall" | "audit") if self.beginning.is_some() => self.behind_beginning(text),
            Some("flow" | "unopened") => match Line::of(text.trim_end_matches('\n')) {
                Some(Line::Flow(flow)) => self.flow(&flow),
                Some(Line::Unopened { sender, receiver, segments }) => self.unopened(&sender, &receiver, segments),
                _ => Err(Broken::NoReport),
            },
            _ => self.put(text.as_bytes()),
        }
    }

    fn finish(self) -> Result<Shown, Broken> {
        self.rows.map_or(Ok(()), Rows::finish).map_err(Broken::Rows)?;
        Ok(self.shown)
    }

    /// Writes a piece of the report.
    fn put(&mut self, piece: &[u8]) -> Result<(), Broken> {
        if let (Some(rows), None) = (&mut self.rows, &self.beginning) {
            rows.take(piece).map_err(Broken::Rows)?;
        }
        Ok(self.out.write_all(piece)?)
    }

    /// Writes for the first line the counts of the original, and what was passed over there.
    fn capture(&mut self, text: &str) -> Result<(), Broken> {
        Capture::of(text.trim_end_matches('\n')).ok_or(Broken::NoReport)?;
        self.shown.is_there = true;
        self.put(self.original.capture.line().as_bytes())?;
        self.original.passed_over().rewind().map_err(Broken::Temporary)?;
        let mut piece = vec![0; 1 << 16];
        loop {
            match self.original.passed_over().read(&mut piece).map_err(Broken::Temporary)? {
                0 => return Ok(()),
                size => self.put(&piece[..size])?,
            }
        }
    }

    fn finding(&mut self, text: &str) -> Result<(), Broken> {
        let line = finding_in(text.trim_end_matches('\n')).ok_or(Broken::NoReport)?;
        let packet = self.packet(line.record)?;
        if let Some((beginning, behind)) = &mut self.beginning {
            let found = line.finding();
            let is_shown = behind.finding(beginning, &found, is_fault(line.kind));
            let frame = found.frame.saturating_sub(beginning.frames());
            self.shown.has_faults |= is_shown == Claim::Fault;
            return match is_shown {
                Claim::Nothing => Ok(()),
                Claim::Shown | Claim::Fault => self.put(format!("{}\n", line_of(&found, frame, packet)).as_bytes()),
            };
        }
        self.shown.has_faults |= is_fault(line.kind);
        self.put(&text.as_bytes()[..line.record_at.start])?;
        self.put(itoa::Buffer::new().format(packet).as_bytes())?;
        self.put(&text.as_bytes()[line.record_at.end..])
    }

    /// Takes a stall, or how far the audit went, of a connection of which something is inferred.
    fn behind_beginning(&mut self, text: &str) -> Result<(), Broken> {
        let (beginning, behind) = match &self.beginning {
            Some(one) => one,
            None => return Ok(()),
        };
        let line = match Line::of(text.trim_end_matches('\n')) {
            Some(Line::Stall(stall)) => match behind.stall(beginning, &stall) {
                Some(stall) => stall_line(&stall),
                None => return Ok(()),
            },
            Some(Line::Audited { stopped_at: Some(frame) }) => {
                format!("audit stopped at frame {}\n", frame.saturating_sub(beginning.frames()))
            }
            Some(Line::Audited { stopped_at: None }) => text.to_string(),
            _ => return Err(Broken::NoReport),
        };
        self.put(line.as_bytes())
    }

    fn packet(&self, record: u64) -> Result<u64, Broken> {
        self.original.packet(record).ok_or(Broken::NoReport)
    }

    fn endpoint(&self, text: &str) -> Result<String, Broken> {
        self.original.endpoint(text).ok_or(Broken::NoReport)
    }

    fn unopened(&mut self, sender: &str, receiver: &str, segments: u64) -> Result<(), Broken> {
        let (sender, receiver) = (self.endpoint(sender)?, self.endpoint(receiver)?);
        let known = self.original.take_unopened(&(sender.clone(), receiver.clone()));
        let Unopened { segments, fate } = known.unwrap_or(Unopened { segments, fate: None });
        self.rows.iter_mut().for_each(|rows| rows.fate(fate.clone()));
        self.put(format!("unopened {sender} {receiver} segments {segments}\n").as_bytes())
    }

    fn connection(&mut self, opening: &Opening) -> Result<(), Broken> {
        let packet = self.packet(opening.record)?;
        let (client, server) = (self.endpoint(&opening.client)?, self.endpoint(&opening.server)?);
        self.opening = Some(packet);
        let joined = self.original.joined(packet);
        self.is_left_out = matches!(joined, Some(Joined::LeftOut));
        if self.is_left_out {
            return Ok(());
        }
        let is_exact = matches!(joined, Some(Joined::Exact | Joined::ExactAndSaid(_)));
        let lines = match joined {
            Some(Joined::ExactAndSaid(lines)) => lines.clone(),
            Some(Joined::Inferred(beginning)) => beginning.lines.clone(),
            Some(Joined::Exact | Joined::LeftOut) | None => Vec::new(),
        };
        self.beginning = match joined {
            Some(Joined::Inferred(beginning)) => Some((beginning.clone(), Behind::default())),
            _ => None,
        };
        let made = self.beginning.as_ref().map_or(0, |one| one.0.frames());
        let connection = self.original.connection(packet);
        let form = match (&opening.form, connection.map(|connection| &connection.became)) {
            (Form::NoHandshake, _) => "no-handshake".into(),
            (_, Some(Became::Refused(reason))) => format!("refused {reason}").into(),
            (Form::Http2 { frames }, _) => format!("http2 frames {}", frames.saturating_sub(made)).into(),
            (form, _) => form.words(),
        };
        let number = opening.number;
        let fragments = connection.map_or(0, |connection| connection.fragments);
        let last = connection.and_then(|connection| connection.last);
        let line = format!("connection {number} client {client} server {server} record {packet} {form}\n");
        self.put(line.as_bytes())?;
        if let (Some(rows), None) = (&mut self.rows, &self.beginning) {
            rows.last_packet(last);
            if is_exact {
                rows.joined("exact");
            }
        }
        lines.iter().try_for_each(|line| self.put(format!("{line}\n").as_bytes()))?;
        match fragments {
            0 => Ok(()),
            count => self.put(format!("fragments {count}\n").as_bytes()),
        }
    }

    /// Writes a flow. To its tail belong the bytes of a TLS record that the capture cuts, and it says why plaintext
    /// ended.
    fn flow(&mut self, flow: &Flow) -> Result<(), Broken> {
        let connection = self.opening.and_then(|opening| self.original.connection(opening));
        if matches!(connection, Some(connection) if matches!(connection.became, Became::Refused(_))) {
            return Ok(());
        }
        let side = connection.and_then(|connection| connection.side(flow.side));
        let of_tls = side.filter(|side| !side.has_gap).map_or(0, |side| side.tail);
        let tail = flow.tail.checked_add(of_tls).ok_or(Broken::NoReport)?;
        let end = side.and_then(|side| side.special_end()).map(str::to_string).or_else(|| flow.end.clone());
        let flow = &self.beginning.as_ref().map_or_else(|| flow.clone(), |one| one.0.flow(flow));
        if let Some((_, behind)) = &mut self.beginning {
            behind.has_gap |= flow.gap.is_some();
        }
        let gap = flow.gap.map_or("none".to_string(), |gap| gap.to_string());
        let end = end.map_or(String::new(), |end| format!(" end {end}"));
        self.put(format!("flow {} bytes {} gap {gap} tail {tail}{end}\n", flow.side, flow.bytes).as_bytes())
    }
}

/// The line of a finding at another frame, which this packet completed.
fn line_of(found: &Finding, frame: u64, packet: u64) -> String {
    let Finding { time, side, kind, stream, value, .. } = found;
    format!("frame {frame} record {packet} time {time} {side} {} stream {stream} value {value}", kind.name())
}

fn stall_line(stall: &Stall) -> String {
    let Stall { side, stream, begin, end } = stall;
    let end = end.map_or("open".to_string(), |(frame, nanos)| format!("to {frame} nanos {nanos}"));
    format!("stall {side} stream {stream} from {begin} {end}\n")
}
