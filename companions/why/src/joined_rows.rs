//! The rows of a connection of which something is inferred: what is claimed of it (docs/WHY.md, 13), in the tables of a
//! report, each with its grade; and what is assumed of its windows.

use std::io;

use explain::answer::{is_by_inference, Assumed, ConnectionSaid, Doubtful, FaultSaid, Files, Grade, Inferred};
use explain::answer::{Outcome, StallSaid, Sure, What};
use reports::rows::{connection, finding, row, stall, StoodStill};
use reports::{Finding, Flow, Form, Kind, Opening};

use crate::json::Json;
use crate::wording::SIDES;

/// Whether what is claimed of a frame rests on what is inferred.
const CERTAIN: &str = "certain";
const JOINED: &str = "joined";

pub fn write(json: &mut Json<'_>, said: &ConnectionSaid, inferred: &Inferred, files: &Files) -> io::Result<()> {
    let findings = findings(said, inferred, files);
    for (position, (one, grade)) in (1..).zip(&findings) {
        row(json, |json| finding(json, said.number, position, one, *grade))?;
    }
    for (position, one) in (findings.len() as u64 + 1..).zip(&said.stalls) {
        row(json, |json| stall(json, said.number, position, &stood_still(one)))?;
    }
    let flows: [Option<Flow>; 2] = SIDES.map(|side| said.flows.iter().find(|flow| flow.side == side).cloned());
    let (opening, stopped_at) = (opening(said, files), said.stopped_at.map(|at| u64::from(at.frame)));
    row(json, |json| connection(json, &opening, &flows, stopped_at, Some("inferred")))?;
    let windows = said.joined.iter().flat_map(|joined| &joined.windows);
    for (position, (one, doubtful)) in (1..).zip(windows) {
        row(json, |json| window(json, said.number, position, one, *doubtful))?;
    }
    Ok(())
}

fn opening(said: &ConnectionSaid, files: &Files) -> Opening {
    let form = match said.outcome {
        Outcome::Http2 => Form::Http2 { frames: said.frames },
        Outcome::NotHttp2 => Form::NotHttp2,
        Outcome::NoPreface => Form::NoPreface,
        Outcome::NoHandshake => Form::NoHandshake,
        Outcome::Refused => Form::Refused(said.reason.clone()),
    };
    let (client, server) = (said.client.clone(), said.server.clone());
    Opening { number: said.number, client, server, record: files.place(said.opened.packet).1, form }
}

/// What is claimed, in the order of a report.
fn findings(said: &ConnectionSaid, inferred: &Inferred, files: &Files) -> Vec<(Finding, Option<&'static str>)> {
    let faults = said.faults.iter().map(|one| of_fault(one, inferred, files));
    let ends = said.stalls.iter().flat_map(|one| of_stall(one, files));
    let mut all: Vec<_> = faults.chain(ends).collect();
    all.sort_by_key(|(one, _)| (one.frame, one.kind.rank(), one.stream, one.side));
    all
}

fn of_fault(one: &FaultSaid, inferred: &Inferred, files: &Files) -> (Finding, Option<&'static str>) {
    let grade = if is_by_inference(inferred, &one.finding) { JOINED } else { CERTAIN };
    (Finding { record: files.place(one.at.packet).1, ..one.finding.clone() }, Some(grade))
}

/// Its begin and its end, as far as they are captured.
fn of_stall(one: &StallSaid, files: &Files) -> Vec<(Finding, Option<&'static str>)> {
    let window = if one.stream == 0 { "connection" } else { "stream" };
    let (begin, end) = one.credits;
    let ends = [(Some(one.begin), "begin", Some(begin)), (one.end, "end", end)];
    let found = ends.into_iter().filter_map(|(at, which, credit)| {
        let (at, value) = (at.filter(|at| at.frame > 0)?, credit?);
        let finding = Finding {
            frame: at.frame.into(),
            record: files.place(at.packet).1,
            time: u64::try_from(at.time).unwrap_or(0),
            side: one.side,
            kind: Kind::of(&format!("{window}-stall-{which}")),
            stream: one.stream.into(),
            value,
        };
        Some((finding, one.sure.map(Sure::name)))
    });
    found.collect()
}

fn stood_still(one: &StallSaid) -> StoodStill {
    let frame = |frame: u32| Some(u64::from(frame)).filter(|frame| *frame > 0);
    StoodStill {
        side: one.side,
        stream: one.stream.into(),
        first: frame(one.begin.frame),
        last: one.end.and_then(|end| frame(end.frame)),
        nanos: Some(one.nanos.into()),
        grade: one.sure.map(Sure::name),
    }
}

fn window(json: &mut Json<'_>, connection: u64, position: u64, one: &Assumed, doubtful: Doubtful) {
    json.word("windows");
    json.number(connection);
    json.number(position);
    json.word(SIDES[one.side].name());
    named(json, Some(one.what));
    json.number(one.credit);
    json.number(one.least);
    json.word(one.grade.word());
    json.number(one.bits);
    json.number(one.touches);
    json.number(one.pause);
    named(json, one.with);
    json.number(u8::from(one.grade != Grade::Bound || doubtful.is_some()));
}

fn named(json: &mut Json<'_>, what: Option<What>) {
    let (word, stream) = match what {
        None => (None, None),
        Some(What::Connection) => (Some("connection"), None),
        Some(What::Initial) => (Some("initial"), None),
        Some(What::Stream(stream)) => (Some("stream"), Some(stream)),
    };
    json.some_word(word);
    json.some_number(stream);
}
