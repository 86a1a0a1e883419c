//! What a page shows, as members of one document: of a capture beside those of --json, of a report by themselves.

use std::collections::BTreeMap;
use std::io::{self, Write};

use explain::answer::{ChartsSaid, ConnectionSaid, Files, Nanos};
use explain::words::{count, reason_words};
use explain::{ReportSaid, ReportedConnection};
use reports::{section_of, what_happened, who_is_to_blame, Capture, Finding, Flow, Form, Kind, Note, Pairing, Side};

use crate::asked::{asked_of_report, Lost, Matter};
use crate::json::Json;

const VERSION: u32 = 1;
/// Before the reason in the form of a connection that was not audited.
const REFUSED: &str = "refused ";
/// What a report alone says of a connection of which a capture tells more; and the reason that has its words.
const NO_HANDSHAKE: (&str, &str) = ("no-handshake", "no-syn-ack");

/// What stands before the connections.
pub fn heading(json: &mut Json<'_>, counts: &Capture, asked: &[(Matter, Lost)]) {
    json.name("h2audit_charts").number(VERSION);
    json.name("capture").object(|json| captured(json, counts));
    matters(json, asked);
}

fn captured(json: &mut Json<'_>, counts: &Capture) {
    json.name("records").number(counts.records);
    json.name("segments").number(counts.segments);
    json.name("snapped").number(counts.snapped);
    json.name("not_ipv4").number(counts.not_ipv4);
    json.name("fragments").number(counts.fragments);
    json.name("not_tcp").number(counts.not_tcp);
    json.name("refused").number(counts.refused);
}

fn matters(json: &mut Json<'_>, asked: &[(Matter, Lost)]) {
    json.name("asked").list(asked, |json, (matter, lost)| {
        json.object(|json| {
            json.name("side").some_word(matter.side.map(Side::name));
            json.name("peer").some(matter.peer.as_deref(), Json::text);
            json.name("kind").word(matter.kind);
            json.name("why").some_word(matter.why);
            json.name("times").number(lost.times);
            json.name("connections").number(lost.connections);
            json.name("longest").number(lost.longest);
            json.name("nanos").number(lost.nanos);
        });
    });
}

/// What is shown of a connection of a capture.
pub fn of_connection(json: &mut Json<'_>, said: &ConnectionSaid, files: &Files) -> io::Result<()> {
    json.name("charts").open(b'{');
    let form =
        if said.reason.is_empty() { said.outcome.name().to_string() } else { format!("{REFUSED}{}", said.reason) };
    json.name("form").text(&form);
    json.name("record").number(said.opened.packet);
    json.name("frames").number(said.frames);
    times(json, said.begin, said.until);
    flows(json, &said.flows);
    json.name("stopped_at").some_number(said.stopped_at.map(|at| at.frame));
    findings(json, &notes_of(said), Some(files))?;
    windows(json, &said.charts)?;
    json.close(b'}');
    json.give()
}

fn times(json: &mut Json<'_>, begin: Nanos, until: Nanos) {
    json.name("begin").number(begin);
    json.name("until").number(until);
}

fn flows(json: &mut Json<'_>, flows: &[Flow]) {
    json.name("flows").list(flows, |json, flow| {
        json.object(|json| {
            json.name("side").word(flow.side.name());
            json.name("bytes").number(flow.bytes);
            json.name("gap").some_number(flow.gap);
            json.name("tail").number(flow.tail);
        });
    });
}

/// The findings of a connection, in the order of a report.
pub fn notes_of(said: &ConnectionSaid) -> Vec<Note> {
    let mut found: Vec<Finding> = said.faults.iter().map(|fault| fault.finding.clone()).collect();
    found.iter_mut().zip(&said.faults).for_each(|(finding, fault)| finding.record = fault.at.packet);
    for stall in &said.stalls {
        for (at, end) in [(Some(stall.begin), "begin"), (stall.end, "end")] {
            let window = if stall.stream == 0 { "connection" } else { "stream" };
            found.extend(at.map(|at| Finding {
                frame: u64::from(at.frame),
                record: at.packet,
                time: u64::try_from(at.time).unwrap_or(0),
                side: stall.side,
                kind: Kind::of(&format!("{window}-stall-{end}")),
                stream: u64::from(stall.stream),
                value: 0,
            }));
        }
    }
    found.sort_by_key(|one| (one.frame, one.kind.rank(), one.stream, one.side));
    let (mut pairing, mut notes) = (Pairing::default(), Vec::with_capacity(found.len()));
    found.into_iter().for_each(|finding| pairing.note(finding, &mut notes));
    notes
}

fn findings(json: &mut Json<'_>, notes: &[Note], files: Option<&Files>) -> io::Result<()> {
    json.name("findings").open(b'[');
    for note in notes {
        json.object(|json| finding(json, note, files));
        json.give()?;
    }
    json.close(b']');
    Ok(())
}

fn finding(json: &mut Json<'_>, note: &Note, files: Option<&Files>) {
    let one = &note.finding;
    let place = files.map(|files| files.place(one.record));
    let broke = one.who_broke_it();
    json.name("frame").number(one.frame);
    json.name("packet").number(place.map_or(one.record, |place| place.1));
    json.name("file").some_number(place.map(|place| place.0));
    json.name("time").number(one.time);
    json.name("side").word(one.side.name());
    json.name("kind").text(one.kind.name());
    json.name("stream").number(one.stream);
    json.name("value").some_number(broke.map(|_| one.value));
    json.name("broke").some_word(broke.map(Side::name));
    json.name("section").some_text(Some(&section_of(one)));
    json.name("text").text(&what_happened(one));
    json.name("blame").text(&who_is_to_blame(one));
    json.name("other").some_number(note.other);
}

fn windows(json: &mut Json<'_>, charts: &ChartsSaid) -> io::Result<()> {
    json.name("windows").open(b'[');
    for one in &charts.windows {
        json.object(|json| {
            json.name("side").word(one.side.name());
            json.name("stream").number(one.stream);
            json.name("changes").number(one.count);
            json.name("least").number(one.least);
            json.name("greatest").number(one.greatest);
            json.name("last").number(one.last);
            json.name("frames").list(&one.points, |json, point| json.number(point.frame));
            json.name("times").list(&one.points, |json, point| json.number(point.time));
            json.name("credits").list(&one.points, |json, point| json.number(point.credit));
        });
        json.give()?;
    }
    json.close(b']');
    json.name("other_windows").object(|json| {
        let extremes = charts.others.extremes;
        json.name("number").number(charts.others.count);
        json.name("least").some_number(extremes.map(|one| one.0));
        json.name("greatest").some_number(extremes.map(|one| one.1));
    });
    Ok(())
}

/// Writes the document of a report, and a line feed.
pub fn write_report(said: &ReportSaid, to: &mut dyn Write) -> io::Result<()> {
    let mut json = Json::new(to);
    json.open(b'{');
    heading(&mut json, &said.counts, &asked_of_report(&said.connections));
    json.name("report").object(|json| {
        json.name("lines").number(said.lines);
        json.name("cut").some_number(said.cut);
        json.name("unopened").number(said.unopened);
        json.name("unopened_segments").number(said.unopened_segments);
    });
    not_audited(&mut json, &said.connections);
    json.name("connections").open(b'[');
    said.connections.iter().try_for_each(|one| reported(&mut json, one))?;
    json.close(b']');
    json.close(b'}');
    json.line();
    json.finish()
}

/// Writes the connections that were not audited, by reason, as an answer has them.
fn not_audited(json: &mut Json<'_>, connections: &[ReportedConnection]) {
    let mut reasons = BTreeMap::<String, u64>::new();
    for form in connections.iter().map(|one| &one.opening.form).filter(|form| !matches!(form, Form::Http2 { .. })) {
        let form = form_of(form);
        let reason = form.strip_prefix(REFUSED).unwrap_or(&form);
        *reasons.entry(reason.to_string()).or_default() += 1;
    }
    json.name("not_audited").list(&reasons, |json, (reason, number)| {
        let known = if reason == NO_HANDSHAKE.0 { NO_HANDSHAKE.1 } else { reason.as_str() };
        json.object(|json| {
            json.name("reason").text(reason);
            json.name("count").number(*number);
            json.name("text").text(&reason_words(known, &count(*number, "connection")));
        });
    });
}

fn reported(json: &mut Json<'_>, one: &ReportedConnection) -> io::Result<()> {
    let opening = &one.opening;
    json.open(b'{');
    json.name("number").number(opening.number);
    json.name("client").text(&opening.client);
    json.name("server").text(&opening.server);
    json.name("charts").open(b'{');
    json.name("form").text(&form_of(&opening.form));
    json.name("record").number(opening.record);
    json.name("frames").number(one.frames());
    times(json, one.begin, one.until);
    flows(json, &one.flows);
    json.name("stopped_at").some_number(one.stopped_at);
    findings(json, &one.notes, None)?;
    windows(json, &one.charts)?;
    json.close(b'}');
    json.close(b'}');
    json.give()
}

fn form_of(form: &Form) -> String {
    match form {
        Form::Http2 { .. } => "http2".to_string(),
        Form::NotHttp2 => "not-http2".to_string(),
        Form::NoPreface => "no-preface".to_string(),
        Form::NoHandshake => "no-handshake".to_string(),
        Form::Refused(reason) => format!("{REFUSED}{reason}"),
    }
}
