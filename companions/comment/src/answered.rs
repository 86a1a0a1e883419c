//! What h2audit-why says of a capture, as comments: its faults and stalls, and each request that was held back, at the
//! packet that opens it and at the one that ends it.

use std::collections::HashMap;
use std::ffi::OsString;

use explain::answer::{Answer, CauseKind, ConnectionSaid, FaultSaid, Request};
use explain::words::time_of;
use programs::Failure;
use reports::{Finding, Note, Side};
use why::{name_of, notes_of, SummedConnection, Whole};

use crate::comments::Findings;

/// A comment that stands as it is.
pub struct Said {
    pub packet: u64,
    pub text: String,
}

/// Audits the capture, and answers with the comments, and whether a connection was audited.
pub fn findings(
    program: &'static str,
    capture: &OsString,
    key_logs: &[OsString],
    h2audit: Option<OsString>,
) -> Result<(Findings, bool), Failure> {
    let asked = explain::ExplainOptions {
        program,
        files: std::slice::from_ref(capture),
        key_logs,
        is_reordered: false,
        is_joined: true,
        h2audit,
        options: &[],
        report: None,
        has_names: true,
        has_query: false,
        has_spans: false,
        has_frames: false,
        has_charts: false,
        has_legs: false,
    };
    let answer = explain::answer_of(&asked)?;
    Ok(said_of(&answer))
}

fn said_of(answer: &Answer) -> (Findings, bool) {
    let whole = Whole::new(answer);
    let mut said = Vec::new();
    for one in whole.audited() {
        findings_of(one.said, &mut said);
        one.said.requests.iter().for_each(|request| of_request(one, &request, &mut said));
    }
    (Findings { said, ..Findings::default() }, whole.summary.audited > 0)
}

/// Faults, each with what set its window and why it can be doubted, and stalls.
fn findings_of(connection: &ConnectionSaid, said: &mut Vec<Said>) {
    let notes = notes_of(connection);
    let faults: HashMap<_, &FaultSaid> =
        connection.faults.iter().map(|fault| (place_of(&fault.finding), fault)).collect();
    for note in &notes {
        let other = note.other.map(|other| &notes[other]);
        let place = |note: &Note| format!("packet {}", note.finding.record);
        let more = faults.get(&place_of(&note.finding)).map(|fault| more_of(fault)).unwrap_or_default();
        let sentence = note.sentence(other, place, "");
        let text = format!("h2audit: HTTP/2 frame {}: {sentence}{more}", note.finding.frame);
        said.push(Said { packet: note.finding.record, text });
    }
}

fn place_of(one: &Finding) -> (u64, usize, Side, u64) {
    (one.frame, one.kind.rank(), one.side, one.stream)
}

fn more_of(fault: &FaultSaid) -> String {
    [&fault.set_text, &fault.doubt]
        .into_iter()
        .filter(|text| !text.is_empty())
        .map(|text| format!("; {text}"))
        .collect()
}

fn of_request(one: &SummedConnection<'_>, request: &Request, said: &mut Vec<Said>) {
    if !is_held(request) {
        return;
    }
    let name = format!("{} (stream {})", name_of(request, one.said.joined.is_some()), request.stream);
    let cause = one.phrases.of(request);
    said.push(Said { packet: request.opened.packet, text: format!("h2audit: {name} opens: {cause}") });
    if let Some(at) = request.ended.at {
        let (took, opened) = (time_of(request.nanos()), request.opened.packet);
        let text = format!("h2audit: {name} ends, {took} after packet {opened}: {cause}");
        said.push(Said { packet: at.packet, text });
    }
}

/// Whether a window or TCP held it back.
fn is_held(request: &Request) -> bool {
    let is_of_it = matches!(request.cause.kind, CauseKind::StreamWindow | CauseKind::ConnectionWindow | CauseKind::Tcp);
    is_of_it || request.is_hung
}
