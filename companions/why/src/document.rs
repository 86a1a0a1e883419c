//! The answer for machines: one document, or a line for each request, with what companions/why/schema.json says.

mod names;

use std::io::{self, Write};

use explain::answer::{
    Answer, At, ConnectionSaid, Direction, Ended, FaultSaid, Files, Holder, Nanos, Request, RoundTrip, Share, Shares,
    Signal, Span, StallSaid, Sure,
};
use reports::{mostly_0, mostly_null, name, section_of, sentence_of, Side};

use crate::asked::Shown;
use crate::charts;
use crate::gates::is_unanswered;
use crate::joined;
use crate::json::Json;
use crate::legs;
use crate::life::put_life;
use crate::phrases::{how_name, Phrases};
use crate::summing::{Summary, SummedConnection, Whole};
use crate::wording::{code_name, grpc_name, SIDES};

pub use names::{cause_side, certainty_name, kind_name, signal_word, why_name};
use names::{place_name, source_name, stall_end_name, stall_name};

const VERSION: u32 = 1;

/// Writes the document, and a line feed; for a page with its charts, and only the requests that it shows.
pub fn write(whole: &Whole<'_>, shown: Option<&Shown>, to: &mut dyn Write) -> io::Result<()> {
    let answer = whole.answer;
    let mut json = Json::new(to);
    json.open(b'{');
    json.name("h2audit_why").number(VERSION);
    if let Some(shown) = shown {
        charts::heading(&mut json, &answer.counts, &shown.asked);
    }
    files(json.name("files"), answer);
    summary(json.name("summary"), answer, &whole.summary);
    json.name("warnings").list(&answer.warnings, |json, one| {
        json.object(|json| {
            json.name("kind").word(one.kind);
            json.name("text").text(&one.text);
            json.name("connection").some_number(one.connection);
            place(json.name("at"), one.at, &answer.files);
        });
    });
    json.name("not_audited").list(&answer.not_audited, |json, one| {
        json.object(|json| {
            json.name("reason").text(&one.reason);
            json.name("count").number(one.count);
            json.name("text").text(&one.text);
        });
    });
    json.name("connections").open(b'[');
    for (place, one) in whole.connections.iter().enumerate() {
        let requests = shown.and_then(|shown| shown.requests.get(place));
        connection(&mut json, one, requests.map(Vec::as_slice), answer)?;
    }
    json.close(b']');
    json.name("hops").list(&answer.legs.hops, |json, one| legs::hop(json, one, answer));
    json.close(b'}');
    json.line();
    json.finish()
}

/// Writes a line for each request, with its connection.
pub fn write_lines(whole: &Whole<'_>, to: &mut dyn Write) -> io::Result<()> {
    let mut json = Json::new(to);
    for one in whole.audited() {
        let requests = &one.said.requests;
        requests.each_at(0..requests.len(), &one.uncaused, |at, found| {
            json.object(|json| {
                json.name("h2audit_why").number(VERSION);
                json.name("connection").number(one.said.number);
                json.name("client_address").text(&one.said.client);
                json.name("server_address").text(&one.said.server);
                request(json, found, &one.phrases, &whole.answer.files);
                legs::request(json.name("legs"), found, (one.place, at), whole.answer);
            });
            json.line();
            json.give()
        })?;
    }
    json.finish()
}

pub fn files(json: &mut Json<'_>, answer: &Answer) {
    json.list(&answer.files.names, |json, name| json.text(name));
}

pub fn summary(json: &mut Json<'_>, answer: &Answer, one: &Summary) {
    json.object(|json| {
        json.name("verdict").word(one.verdict.name());
        json.name("text").text(&one.text);
        json.name("packets").number(answer.packets);
        json.name("connections").number(answer.connections.len());
        json.name("audited").number(one.audited);
        json.name("requests").number(one.tally.requests);
        json.name("faults").number(one.faults);
        json.name("doubtful").number(one.doubtful);
        json.name("held_back").number(one.tally.held);
        json.name("held_by_tcp").number(one.tally.tcp);
        json.name("hung").number(one.tally.hung);
        json.name("begin").number(one.begin);
        json.name("nanos").number(one.nanos);
    });
}

pub fn place(json: &mut Json<'_>, at: Option<At>, files: &Files) {
    json.some(at, |json, at| {
        let (file, packet) = files.place(at.packet);
        json.often([packet, file as u64, at.time as u64, at.frame.into()], |json| {
            json.object(|json| {
                name!(json, "packet").number(packet);
                name!(json, "file").number(file);
                name!(json, "time").number(at.time);
                name!(json, "frame").some_number(Some(at.frame).filter(|frame| *frame > 0));
            });
        });
    });
}

/// Writes a connection with all its requests, or with those that a page shows, and its charts.
fn connection(
    json: &mut Json<'_>,
    one: &SummedConnection<'_>,
    shown: Option<&[usize]>,
    answer: &Answer,
) -> io::Result<()> {
    let (said, files) = (one.said, &answer.files);
    json.open(b'{');
    of_connection(json, said, files);
    json.name("faults").open(b'[');
    for found in &said.faults {
        json.object(|json| fault(json, found, files));
        json.give()?;
    }
    json.close(b']');
    json.name("stalls").open(b'[');
    for found in &said.stalls {
        stall(json, found, said, files);
        json.give()?;
    }
    json.close(b']');
    json.name("requests").open(b'[');
    let all = 0..if shown.is_some() { 0 } else { said.requests.len() };
    let places = all.chain(shown.into_iter().flatten().copied());
    said.requests.each_at(places, &one.uncaused, |at, found| {
        json.object(|json| {
            request(json, found, &one.phrases, files);
            legs::request(name!(json, "legs"), found, (one.place, at), answer);
        });
        json.give()
    })?;
    json.close(b']');
    json.name("signals").list(&said.signals, |json, found| signal(json, found, files));
    ended(json.name("ended"), &said.ended, files);
    place(json.name("stopped_at"), said.stopped_at, files);
    json.name("gaps").list(&said.gaps, |json, (side, offset)| {
        json.object(|json| {
            json.name("side").word(side.name());
            json.name("offset").number(*offset);
        });
    });
    json.name("uncaptured").object(|json| {
        for side in SIDES {
            let found = said.uncaptured.iter().find(|one| one.0 == side);
            json.name(side.name()).number(found.map_or(0, |one| one.1.bytes));
        }
    });
    json.name("notes").list(&said.notes, |json, note| json.text(note));
    if shown.is_some() {
        charts::of_connection(json, said, files)?;
    }
    json.close(b'}');
    json.give()
}

/// What is said of a connection before its findings.
fn of_connection(json: &mut Json<'_>, said: &ConnectionSaid, files: &Files) {
    json.name("number").number(said.number);
    json.name("client").text(&said.client);
    json.name("server").text(&said.server);
    place(json.name("opened"), Some(said.opened), files);
    json.name("outcome").word(said.outcome.name());
    joined::write(json.name("joined"), said);
    json.name("reason").some_text(Some(&said.reason));
    json.name("tls").some_text(Some(&said.tls));
    json.name("frames").number(said.frames);
    json.name("begin").number(said.begin);
    json.name("nanos").number(said.until - said.begin);
    round_trip(json.name("round_trip"), &said.round_trip);
    json.name("captured_at").some_word(said.captured_at.map(place_name));
    json.name("limits").list(&said.limits, |json, limit| json.text(limit));
    json.name("settings").list(&said.settings, |json, one| {
        json.object(|json| {
            json.name("side").word(one.side.name());
            json.name("initial_window").number(one.value);
            place(json.name("at"), Some(one.at), files);
            place(json.name("acknowledged"), one.acknowledged, files);
        });
    });
}

fn round_trip(json: &mut Json<'_>, one: &RoundTrip) {
    fn by_sides(json: &mut Json<'_>, [client, server]: [Option<Nanos>; 2]) {
        json.object(|json| {
            json.name("client").some_number(client);
            json.name("server").some_number(server);
        });
    }
    json.object(|json| {
        json.name("nanos").some_number(one.to.map(|[client, server]| client + server));
        json.name("source").some_word(one.source.map(source_name));
        by_sides(json.name("tcp"), one.tcp);
        by_sides(json.name("http2"), one.http2);
    });
}

/// Writes the members of a fault.
pub fn fault(json: &mut Json<'_>, said: &FaultSaid, files: &Files) {
    let finding = &said.finding;
    json.name("kind").text(finding.kind.name());
    json.name("side").word(finding.side.name());
    json.name("broke").some_word(finding.who_broke_it().map(Side::name));
    json.name("section").some_text(Some(&section_of(finding)));
    json.name("stream").number(finding.stream);
    json.name("value").number(finding.value);
    place(json.name("at"), Some(said.at), files);
    json.name("certainty").word(certainty_name(said.certainty));
    json.name("doubt").some_text(Some(&said.doubt));
    json.name("set_by").list(&said.set_by, |json, at| place(json, Some(*at), files));
    json.name("set_by_text").some_text(Some(&said.set_text));
    json.name("text").text(&sentence_of(finding, ""));
}

fn stall(json: &mut Json<'_>, said: &StallSaid, of: &ConnectionSaid, files: &Files) {
    let is_its = |one: &&Holder| (one.begin, one.side) == (said.begin.frame, said.side as usize) && said.stream == 0;
    json.object(|json| {
        json.name("side").word(said.side.name());
        json.name("stream").number(said.stream);
        place(json.name("begin"), Some(said.begin), files);
        place(json.name("end"), said.end, files);
        json.name("nanos").number(said.nanos);
        json.name("ended_by").some_word(said.ended_by.map(stall_end_name));
        json.name("why").word(stall_name(said.why));
        json.name("ask").word(said.side.other().name());
        json.name("late_nanos").number(said.late);
        json.name("grade").some_word(said.sure.map(Sure::name));
        json.name("holder").some(of.holders.iter().find(is_its), |json, one| {
            json.object(|json| {
                json.name("stream").number(one.stream);
                json.name("bytes").number(one.bytes);
                json.name("of").number(one.of);
            });
        });
    });
}

fn ended(json: &mut Json<'_>, one: &Ended, files: &Files) {
    json.object(|json| {
        name!(json, "how").word(how_name(one.how));
        name!(json, "side").some_word(one.side.map(Side::name));
        mostly_null!(json, "code", one.code, Json::number);
        mostly_null!(json, "code_name", one.code, |json: &mut Json<'_>, code| json.text(&code_name(code)));
        place(name!(json, "at"), one.at, files);
    });
}

fn signal(json: &mut Json<'_>, one: &Signal, files: &Files) {
    json.object(|json| {
        json.name("word").word(signal_word(one));
        json.name("side").word(one.side.name());
        json.name("code").number(one.code);
        json.name("code_name").text(&code_name(one.code));
        json.name("stream").number(one.stream);
        json.name("last_stream").some_number(one.last);
        json.name("debug").some_text(one.debug.as_deref());
        place(json.name("at"), Some(one.at), files);
    });
}

/// Writes the members of a request.
fn request(json: &mut Json<'_>, one: &Request, phrases: &Phrases<'_>, files: &Files) {
    name!(json, "stream").number(one.stream);
    name!(json, "name").some(one.name.as_deref(), Json::text);
    name!(json, "method").some(one.method.as_deref(), Json::text);
    name!(json, "path").some(one.path.as_deref(), Json::text);
    name!(json, "authority").some(one.authority.as_deref(), Json::text);
    name!(json, "status").some_number(one.status);
    mostly_null!(json, "grpc_status", one.grpc_status, Json::number);
    mostly_null!(json, "grpc_status_name", one.grpc_status, |json: &mut Json<'_>, code| json.text(&grpc_name(code)));
    mostly_null!(json, "promised_on", Some(one.promised_on).filter(|stream| *stream > 0), Json::number);
    place(name!(json, "opened"), Some(one.opened), files);
    ended(name!(json, "ended"), &one.ended, files);
    name!(json, "nanos").number(one.nanos());
    direction(name!(json, "client"), &one.sides[0], one.opened.time, files);
    direction(name!(json, "server"), &one.sides[1], one.opened.time, files);
    name!(json, "hung").truth(one.is_hung);
    mostly_null!(json, "hung_nanos", Some(one.hung_nanos).filter(|_| one.is_hung), Json::number);
    name!(json, "unanswered").truth(is_unanswered(one));
    name!(json, "end_unseen").truth(one.is_end_unseen);
    name!(json, "opened_before").truth(one.was_open);
    cause(name!(json, "cause"), one, phrases, files);
    mostly_null!(json, "needed_window", one.cause.needed, Json::number);
    name!(json, "life").made_text(|text| put_life(text, one));
}

fn direction(json: &mut Json<'_>, one: &Direction, opened: Nanos, files: &Files) {
    json.object(|json| {
        mostly_0!(json, "nanos", one.nanos);
        mostly_0!(json, "content", one.content);
        name!(json, "shares").object(|json| shares(json, &one.shares));
        mostly_0!(json, "stalls", one.stalls);
        place(name!(json, "first"), one.first, files);
        place(name!(json, "end"), one.end, files);
        name!(json, "spans")
            .some(one.spans.as_ref(), |json, spans| json.list(spans, |json, one| span(json, one, opened)));
    });
}

/// Writes one after the other, so that each name is known to the compiler.
fn shares(json: &mut Json<'_>, all: &Shares) {
    let [waiting, sending, stream_stall, connection_stall, tcp, others, idle, unseen] = *all;
    mostly_0!(json, Share::Waiting.name(), waiting);
    mostly_0!(json, Share::Sending.name(), sending);
    mostly_0!(json, Share::StreamStall.name(), stream_stall);
    mostly_0!(json, Share::ConnectionStall.name(), connection_stall);
    mostly_0!(json, Share::Tcp.name(), tcp);
    mostly_0!(json, Share::Others.name(), others);
    mostly_0!(json, Share::Idle.name(), idle);
    mostly_0!(json, Share::Unseen.name(), unseen);
}

fn span(json: &mut Json<'_>, one: &Span, opened: Nanos) {
    json.open(b'[');
    json.number(one.begin - opened);
    json.number(one.end - one.begin);
    json.word(one.share.name());
    json.close(b']');
}

/// What held back a request.
pub fn cause(json: &mut Json<'_>, of: &Request, phrases: &Phrases<'_>, files: &Files) {
    let one = &of.cause;
    json.object(|json| {
        name!(json, "kind").word(kind_name(one.kind));
        mostly_null!(json, "why", why_name(one.why), Json::word);
        mostly_null!(json, "side", cause_side(one), Json::word);
        mostly_null!(json, "ask", one.ask.map(Side::name), Json::word);
        mostly_0!(json, "nanos", one.nanos);
        mostly_null!(json, "first", one.first, |json, at| place(json, Some(at), files));
        mostly_null!(json, "last", one.last, |json, at| place(json, Some(at), files));
        name!(json, "text").made_text(|text| phrases.put(text, of));
        name!(json, "proved").truth(one.is_proved);
        mostly_null!(json, "grade", one.sure.map(Sure::name), Json::word);
    });
}
