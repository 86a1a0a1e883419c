//! What is said of a connection before its frames are: how it was joined, how far its flows reach, what its bytes are.

use import::{Became, Summary, TcpCourse};
use reports::Form;

use crate::answer::{Behind, ConnectionSaid, JoinedSaid, Outcome};
use crate::audit::Audit;
use crate::spoken::{reason_of, Spoken};

/// How a connection was joined, if it began before the capture.
pub(super) fn how_joined(summary: &Summary, number: usize) -> Option<JoinedSaid> {
    let at = summary.joined.binary_search_by_key(&number, |one| one.connection).ok()?;
    Some(JoinedSaid { how: summary.joined.get(at)?.how.clone(), behind: Behind::No, windows: Vec::new() })
}

/// Says why nothing of a connection of TLS could be read.
pub(super) fn say_refused(said: &mut ConnectionSaid, why: &str, course: &TcpCourse, spoken: [Spoken; 2]) {
    said.opened.time = course.syn.nanos;
    said.begin = course.syn.nanos;
    said.outcome = Outcome::Refused;
    let no_handshake = Some(Outcome::NoHandshake).filter(|outcome| why == outcome.name());
    let shown = no_handshake.and_then(|outcome| reason_of(outcome, course, spoken));
    said.reason = shown.unwrap_or(why).to_string();
    said.frames = 0;
}

/// Says how far the flows of a connection reach, without bytes that were made up.
pub(super) fn say_flows(said: &mut ConnectionSaid, audit: &mut Audit, made_bytes: [u64; 2], became: &Became) {
    for flow in &mut audit.flows {
        let made = made_bytes[flow.side as usize];
        flow.bytes = flow.bytes.saturating_sub(made);
        flow.gap = flow.gap.map(|offset| offset.saturating_sub(made));
    }
    said.gaps = audit.gaps().collect();
    said.flows = std::mem::take(&mut audit.flows);
    said.flows.shrink_to_fit();
    let is_inferred = said.joined.as_ref().map_or(false, |joined| joined.inferred().is_some());
    for flow in &mut said.flows {
        flow.tail = flow.tail.saturating_add(became.cut_bytes(flow.side as usize));
        flow.end = if is_inferred { became.special_end(flow.side as usize) } else { None };
    }
}

/// What a report says that the bytes of a connection are; none where it could not be read.
pub(super) fn outcome_of(form: &Form) -> Option<Outcome> {
    match form {
        Form::Http2 { .. } => Some(Outcome::Http2),
        Form::NotHttp2 => Some(Outcome::NotHttp2),
        Form::NoPreface => Some(Outcome::NoPreface),
        Form::NoHandshake => Some(Outcome::NoHandshake),
        Form::Refused(_) => None,
    }
}
