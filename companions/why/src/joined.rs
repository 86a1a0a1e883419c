//! Says of a connection that began before the capture how it was joined, and how sure what is claimed of it is
//! (docs/WHY.md, 13).

use std::fmt::Write;

use explain::answer::{
    assumed_of, Answer, Assumed, Behind, Cause, CauseKind, ConnectionSaid, Doubtful, Grade, Inferred, JoinedHow,
    JoinedSaid, Request, SideEvidence, Sure, What,
};
use reports::grouped;

use crate::json::Json;
use crate::wording::{count, time_of, SIDES};

/// So many windows of a connection are named that were not seen to be used up.
const MOST_WINDOWS: usize = 3;
const PROVED: &str = "The report on a connection that was joined is proved of the capture that was made: its \
                      packets as they stand, behind a beginning that was made up. Frames, and the faults that are said \
                      to be certain, rest on packets alone; stalls that are marked rest on windows that are inferred. \
                      Overruns cannot be seen there.";

/// What was lost of a handshake, where nothing is inferred.
fn lost(how: &JoinedHow) -> Option<(&'static str, &'static str)> {
    match how {
        JoinedHow::Syn => Some(("syn", "SYN")),
        JoinedHow::Answer => Some(("syn-ack", "SYN ACK")),
        JoinedHow::Handshake => Some(("handshake", "handshake")),
        JoinedHow::Inferred(_) => None,
    }
}

fn sides_words(told: SideEvidence) -> &'static str {
    match told {
        SideEvidence::Before => "as before the gap",
        SideEvidence::Secret => "by the secrets of TLS",
        SideEvidence::Fields => "by the fields of requests and answers",
        SideEvidence::Promise => "by a promise",
        SideEvidence::EnablePush => "by ENABLE_PUSH",
        SideEvidence::Priority => "by PRIORITY",
        SideEvidence::GoAway => "by the last stream of a GOAWAY",
        SideEvidence::Ports => "by their ports alone",
        SideEvidence::Content => "by nothing but who sends more",
    }
}

/// The lines below a connection's first.
pub fn lines_of(said: &ConnectionSaid, is_all: bool) -> Vec<String> {
    let joined = match &said.joined {
        Some(joined) => joined,
        None => return Vec::new(),
    };
    let mut lines = match joined.inferred() {
        Some(inferred) => vec![inferred_line(said.number, inferred, joined.behind)],
        None => {
            let what = lost(&joined.how).map_or("", |lost| lost.1);
            vec![format!("began before the capture: its {what} was not captured, and nothing is inferred")]
        }
    };
    lines.extend(bound_lines(joined, is_all));
    lines
}

/// What goes on behind a gap is named by the connection that has it.
pub fn name_of(said: &ConnectionSaid) -> String {
    match said.joined.as_ref().map(|joined| joined.behind) {
        Some(Behind::Gap { connection, turn: 1 }) => format!("{connection}, joined after the gap"),
        Some(Behind::Gap { connection, turn }) => format!("{connection}, joined after gap {turn}"),
        _ => said.number.to_string(),
    }
}

/// Before what a stream had been opened that was open at the beginning.
pub fn before_what(said: &ConnectionSaid) -> &'static str {
    match said.joined.as_ref().map(|joined| joined.behind) {
        Some(Behind::Gap { .. } | Behind::First) => "before the gap",
        Some(Behind::No) | None => "before the capture",
    }
}

fn inferred_line(number: u64, inferred: &Inferred, behind: Behind) -> String {
    let gap = if behind == Behind::No { "" } else { " behind the gap" };
    let borders = SIDES.iter().zip(&inferred.borders).map(|(side, border)| match border {
        Some(border) if border.at == 0 => format!("from the first byte{gap} of the {side}'s on"),
        Some(border) => format!("from byte {}{gap} of the {side}'s on", grouped(border.at + 1)),
        None => format!("of the {side} none"),
    });
    let borders: Vec<String> = borders.collect();
    let began = match behind {
        Behind::No => "began before the capture".to_string(),
        Behind::First => "began before the capture, and was joined behind bytes that are missing".to_string(),
        Behind::Gap { .. } => format!("connection {number} of all: bytes before it are missing"),
    };
    let mut text = format!(
        "{began}: client and server are told {}; frames are read {}; ",
        sides_words(inferred.sides),
        borders.join(", ")
    );
    if !inferred.open.is_empty() {
        let _ = write!(text, "{} had been opened; ", count(inferred.open.len() as u64, "stream"));
    }
    text + match inferred.is_doubtful {
        true => "times go back or packets stand twice, so no stall and no fault is claimed",
        false => "windows are inferred",
    }
}

/// Windows that were not seen to be used up.
fn bound_lines(joined: &JoinedSaid, is_all: bool) -> Vec<String> {
    if joined.inferred().map_or(false, |inferred| inferred.is_doubtful) {
        return Vec::new();
    }
    let bounds: Vec<_> = joined.windows.iter().filter(|one| one.0.grade == Grade::Bound).collect();
    let most = if is_all { bounds.len() } else { bounds.len().min(MOST_WINDOWS) };
    let mut lines: Vec<String> = bounds[..most].iter().map(|(one, doubtful)| bound_line(one, *doubtful)).collect();
    if bounds.len() > most {
        let left = bounds.len() - most;
        let (more, were) = (count(left as u64, "window"), if left == 1 { "was" } else { "were" });
        lines.push(format!("{more} more {were} not seen to be used up: --all"));
    }
    lines
}

fn bound_line(one: &Assumed, doubtful: Doubtful) -> String {
    let (side, least) = (SIDES[one.side], count(one.least.max(0), "byte"));
    let window = match one.what {
        What::Connection => "the connection's window".to_string(),
        What::Initial => "streams that opened since".to_string(),
        What::Stream(stream) => format!("stream {stream}"),
    };
    match doubtful.is_some() {
        true => format!(
            "no stall of the {side} can be told on {window}: it was not seen to use up its credit, of {least} or more"
        ),
        false => format!("no stall of the {side} on {window}: {least} or more were all that it needed"),
    }
}

/// How sure what is said of a request is, behind its words.
pub fn mark(said: &ConnectionSaid, request: &Request) -> Option<String> {
    let cause = &request.cause;
    let inferred = said.joined.as_ref()?.inferred()?;
    let stream = if cause.kind == CauseKind::ConnectionWindow { 0 } else { request.stream };
    let assumed = assumed_of(inferred, cause.side as usize, stream);
    match (cause.sure?, assumed) {
        (Sure::Strong, Some(one)) => Some(format!(" [inferred: {}]", evidence_words(one, cause, said))),
        (Sure::Likely, Some(one)) => Some(format!(" [likely: {}]", evidence_words(one, cause, said))),
        (Sure::Either, Some(one)) => Some(format!(" [likely, {}]", either_words(one))),
        _ => None,
    }
}

/// Why a window is taken to have been used up.
fn evidence_words(one: &Assumed, cause: &Cause, said: &ConnectionSaid) -> String {
    let since = if before_what(said) == "before the gap" { "the gap" } else { "the capture began" };
    let side = cause.side;
    let at = match one.what {
        What::Initial => "at the same byte of its streams",
        What::Connection | What::Stream(_) => "at the same byte",
    };
    match one.touches {
        0 => format!("the {side} was silent since {since}, and went on at once after a grant"),
        1 => format!("the {side} stopped for {}, and went on only after a grant", time_of(one.pause)),
        times => format!("the {side} stopped {} times {at}, and went on only after a grant", grouped(u64::from(times))),
    }
}

/// What is said of two windows, the stream's first.
fn either_words(one: &Assumed) -> String {
    let other = match (one.what, one.with) {
        (What::Connection, Some(What::Stream(stream))) => format!("the window of stream {stream}"),
        (What::Connection, _) => "the windows of its streams".to_string(),
        _ => "its own window".to_string(),
    };
    format!("by {other} or the connection's")
}

/// What rests on the proved report, where something is inferred.
pub fn proved(answer: &Answer) -> Option<&'static str> {
    let is_inferred = |one: &ConnectionSaid| one.joined.as_ref().map_or(false, |joined| joined.inferred().is_some());
    answer.audited().any(is_inferred).then_some(PROVED)
}

/// Writes the member of a connection.
pub fn write(json: &mut Json<'_>, said: &ConnectionSaid) {
    json.some(said.joined.as_deref(), |json, joined| {
        json.object(|json| {
            json.name("exact").some_word(lost(&joined.how).map(|lost| lost.0));
            json.name("after_gap").truth(joined.behind != Behind::No);
            json.name("after_gap_of").some_number(joined.behind.connection());
            let inferred = joined.inferred();
            json.name("sides").some_word(inferred.map(|inferred| inferred.sides.word()));
            for (at, side) in SIDES.iter().enumerate() {
                json.name(side.name()).some(inferred.and_then(|inferred| inferred.borders[at]), |json, border| {
                    json.object(|json| {
                        json.name("offset").number(border.at);
                        json.name("bits").number(border.bits);
                    });
                });
            }
            json.name("doubtful").truth(inferred.map_or(false, |inferred| inferred.is_doubtful));
            let open = inferred.map_or(&[][..], |inferred| &inferred.open);
            json.name("open").list(open, |json, stream| json.number(*stream));
            json.name("windows").list(&joined.windows, |json, (one, doubtful)| window(json, one, *doubtful));
            json.name("text").list(&lines_of(said, true), |json, line| json.text(line));
        });
    });
}

fn window(json: &mut Json<'_>, one: &Assumed, doubtful: Doubtful) {
    json.object(|json| {
        json.name("side").word(SIDES[one.side].name());
        named(json, one.what);
        json.name("credit").number(one.credit);
        json.name("least").number(one.least);
        json.name("grade").word(one.grade.word());
        json.name("bits").number(one.bits);
        json.name("touches").number(one.touches);
        json.name("pause_nanos").number(one.pause);
        json.name("or").some(one.with, |json, other| json.object(|json| named(json, other)));
        json.name("can_stall").truth(one.grade != Grade::Bound || doubtful.is_some());
    });
}

fn named(json: &mut Json<'_>, what: What) {
    let (word, stream) = match what {
        What::Connection => ("connection", None),
        What::Initial => ("initial", None),
        What::Stream(stream) => ("stream", Some(stream)),
    };
    json.name("window").word(word);
    json.name("stream").some_number(stream);
}
