//! What both ends of a connection tell of its requests and stalls, as text and for machines.

use std::cmp::Reverse;
use std::collections::HashMap;
use std::fmt::Write as _;
use std::io::{self, Write};
use std::rc::Rc;

use explain::answer::{At, ConnectionSaid};
use reports::{sentence_of, Side};

use crate::compare_said::files_of;
use crate::document;
use crate::ends::{Both, Joined};
use crate::ends_requests::{RequestOfBoth, RequestsOfBoth};
use crate::ends_stalls::{faults_of, stalls_of, FaultOfBoth, ShownBy, StallOfBoth};
use crate::gates::Place;
use crate::json::Json;
use crate::page::{packets_of, Colour, Page};
use crate::summing::Whole;
use crate::wording::{count, escaped, list_of, time_of, SIDES};

const VERSION: u32 = 1;
/// So many requests, and so many stalls, are shown unless all are asked for.
const MOST_SHOWN: usize = 12;
const DRIFTS: &str = "the clocks drift apart: parts of late stalls may be wrong by as much";

/// The names of the requests of an end, by their streams.
type Names = HashMap<u32, Option<Rc<str>>>;

pub fn write(found: &Joined<'_>, page: &mut Page<'_>) -> io::Result<()> {
    let captures = || SIDES.into_iter().zip(found.wholes);
    for (side, whole) in captures() {
        for warning in &whole.answer.warnings {
            page.folded(&format!("warning: {side}'s: {}", escaped(&warning.text)), "  ", Colour::Yellow)?;
        }
    }
    for (side, whole) in captures() {
        page.folded(&format!("{side}'s: {}: {}", files_of(whole), whole.summary.text), "  ", Colour::Plain)?;
    }
    for (side, some) in SIDES.into_iter().zip(&found.alone).filter(|(_, some)| !some.is_empty()) {
        let numbers = list_of(&some.iter().map(|said| said.number.to_string()).collect::<Vec<_>>());
        let connections = count(some.len() as u64, "connection");
        let text = format!("In the {side}'s capture alone: {connections}, {numbers}");
        page.folded(&text, "  ", Colour::Yellow)?;
    }
    for both in &found.pairs {
        page.line("")?;
        connection(both, page)?;
    }
    Ok(())
}

fn connection(both: &Both<'_>, page: &mut Page<'_>) -> io::Result<()> {
    page.folded(&head_of(both), "  ", Colour::Bold)?;
    if both.drifts {
        page.folded(&format!("  {DRIFTS}"), "    ", Colour::Yellow)?;
    }
    for fault in faults_of(both) {
        page.folded(&format!("  {}", fault_words(both, &fault)), "    ", Colour::Red)?;
    }
    for lost in both.lost_words() {
        page.folded(&format!("  {lost}"), "    ", Colour::Yellow)?;
    }
    let mut stalls = stalls_of(both);
    stalls.sort_by_key(|one| Reverse(one.stall.nanos));
    if stalls.is_empty() {
        page.line("  no side used up its credit")?;
    }
    let names = SIDES.map(|side| names_of(both, side));
    let words = |one: &StallOfBoth<'_>| {
        let name = names[one.stall.side as usize].get(&one.stall.stream).cloned().flatten();
        stall_words(both, one, name.as_deref())
    };
    first_ones(&stalls, "stall", words, page)?;
    let mut requests: Vec<_> = RequestsOfBoth::of(both).iter().collect();
    requests.sort_by_key(|one| Reverse(one.nanos));
    first_ones(&requests, "request", request_words, page)
}

/// Writes a line for each of the first ones, or of all, and how many more there are.
fn first_ones<T>(all: &[T], what: &str, words: impl Fn(&T) -> String, page: &mut Page<'_>) -> io::Result<()> {
    let most = if page.look.is_all { all.len() } else { all.len().min(MOST_SHOWN) };
    for one in &all[..most] {
        page.folded(&format!("  {}", words(one)), "      ", Colour::Plain)?;
    }
    match all.len() - most {
        0 => Ok(()),
        more => page.line(&format!("  {} more: --all", count(more as u64, what))),
    }
}

fn names_of(both: &Both<'_>, side: Side) -> Names {
    both.end(side).said().requests.iter().map(|request| (request.stream, request.name)).collect()
}

fn head_of(both: &Both<'_>) -> String {
    let [client, server] = [both.end(Side::Client).said(), both.end(Side::Server).said()];
    let mut text = format!(
        "connection {} of the client's, {} of the server's  {} -> {}",
        client.number, server.number, client.client, client.server
    );
    if (&client.client, &client.server) != (&server.client, &server.server) {
        let _ = write!(text, " (at the server {} -> {})", server.client, server.server);
    }
    let way = if both.ahead >= 0 { "ahead" } else { "behind" };
    let (round_trip, within) = (time_of(both.round_trip), time_of(both.round_trip / 2));
    let ahead = time_of(both.ahead.saturating_abs());
    text + &format!("   round trip {round_trip}; the server's clock is {ahead} {way}, to within {within}")
}

fn stream_words(stream: u32, name: Option<&str>) -> String {
    let name = name.filter(|name| !name.is_empty());
    format!("stream {stream}{}", name.map_or(String::new(), |name| format!(" {}", escaped(name))))
}

fn request_words(one: &RequestOfBoth) -> String {
    format!("{}: {}", stream_words(one.stream, one.name.as_deref()), one.words())
}

fn stall_words(both: &Both<'_>, one: &StallOfBoth<'_>, name: Option<&str>) -> String {
    let (stall, sender) = (one.stall, one.stall.side);
    let place = match stall.stream {
        0 => "the connection".to_string(),
        stream => stream_words(stream, name),
    };
    let lasts = time_of(stall.nanos) + if stall.end.is_none() { " without an end" } else { "" };
    let shows = if one.shows_there { "shows at both ends".to_string() } else { format!("shows at the {sender} alone") };
    let packets = packets_of(both.end(sender).files, Some(stall.begin), stall.end);
    let on_way = one.way_words();
    let mut text = format!("{place}: the {sender} stalled for {lasts}, {packets}; {shows}. On its way: {on_way}. ");
    if let Some(parts) = one.parts {
        let [out, answer, back] = [parts.out, parts.answer, parts.back].map(time_of);
        let _ = write!(text, "Way out {out}, answer {answer}, way back {back}. ");
    }
    let ask = one.ask().map_or(String::new(), |side| format!(". Ask the {side}"));
    format!("{text}{}: {}{ask}", one.verdict.name(), one.text)
}

fn fault_words(both: &Both<'_>, one: &FaultOfBoth<'_>) -> String {
    let side = match one.shown_by {
        ShownBy::One(side) => side,
        ShownBy::Both => Side::Client,
    };
    let (_, packet) = both.end(side).files.place(one.fault.at.packet);
    let text = format!("FAULT: {}; packet {packet} of the {side}'s; ", sentence_of(&one.fault.finding, ""));
    match one.shown_by {
        ShownBy::Both => text + "both captures show it",
        ShownBy::One(side) => format!("{text}the {side}'s order of frames alone shows it"),
    }
}

/// What both ends say of connections and requests, in each capture: a stall stands in that of its sender, and the parts
/// of a request in the client's.
pub fn by_place(found: &Joined<'_>) -> [HashMap<Place, Vec<String>>; 2] {
    let mut said = [HashMap::<Place, Vec<String>>::new(), HashMap::new()];
    for side in SIDES {
        for one in &found.alone[side as usize] {
            said[side as usize].insert((one.number, None), vec![format!("in the {side}'s capture alone")]);
        }
    }
    for both in &found.pairs {
        let (faults, lost) = (faults_of(both), both.lost_words());
        for side in SIDES {
            let mut lines = vec![head_of(both)];
            lines.extend(both.drifts.then(|| DRIFTS.to_string()));
            lines.extend(faults.iter().filter(|one| one.shown_by.is_by(side)).map(|one| fault_words(both, one)));
            lines.extend(lost.iter().cloned());
            said[side as usize].insert((both.end(side).said().number, None), lines);
        }
        for one in RequestsOfBoth::of(both).iter() {
            let place = (both.end(Side::Client).said().number, Some(one.stream));
            said[Side::Client as usize].entry(place).or_default().push(one.words());
        }
        let names = SIDES.map(|side| names_of(both, side));
        for one in stalls_of(both) {
            let side = one.stall.side;
            let name = names[side as usize].get(&one.stall.stream);
            let place = (both.end(side).said().number, name.map(|_| one.stall.stream));
            let words = stall_words(both, &one, name.and_then(|name| name.as_deref()));
            said[side as usize].entry(place).or_default().push(words);
        }
    }
    said
}

pub fn write_document(found: &Joined<'_>, to: &mut dyn Write) -> io::Result<()> {
    let mut json = Json::new(to);
    json.open(b'{');
    json.name("h2audit_why_ends").number(VERSION);
    for side in SIDES {
        capture(json.name(side.name()), found.wholes[side as usize], &found.alone[side as usize]);
    }
    json.name("connections").open(b'[');
    for both in &found.pairs {
        pair(&mut json, both)?;
    }
    json.close(b']');
    json.close(b'}');
    json.line();
    json.finish()
}

fn capture(json: &mut Json<'_>, whole: &Whole<'_>, alone: &[&ConnectionSaid]) {
    json.object(|json| {
        document::files(json.name("files"), whole.answer);
        document::summary(json.name("summary"), whole.answer, &whole.summary);
        json.name("warnings").list(&whole.answer.warnings, |json, one| json.text(&one.text));
        json.name("alone").list(alone, |json, one| json.number(one.number));
    });
}

fn pair(json: &mut Json<'_>, both: &Both<'_>) -> io::Result<()> {
    json.open(b'{');
    for side in SIDES {
        let said = both.end(side).said();
        json.name(side.name()).object(|json| {
            json.name("number").number(said.number);
            json.name("client").text(&said.client);
            json.name("server").text(&said.server);
        });
    }
    json.name("round_trip").number(both.round_trip);
    json.name("server_ahead").number(both.ahead);
    json.name("within").number(both.round_trip / 2);
    json.name("drifts").truth(both.drifts);
    json.name("lost").list(both.lost_words(), |json, words| json.text(&words));
    json.name("requests").open(b'[');
    for one in RequestsOfBoth::of(both).iter() {
        request(json, both, &one);
        json.give()?;
    }
    json.close(b']');
    json.name("stalls").open(b'[');
    for one in stalls_of(both) {
        stall(json, both, &one);
        json.give()?;
    }
    json.close(b']');
    json.name("faults").open(b'[');
    for one in faults_of(both) {
        let side = if one.shown_by == ShownBy::One(Side::Server) { Side::Server } else { Side::Client };
        json.object(|json| {
            json.name("shown_by").word(one.shown_by.name());
            document::fault(json, one.fault, both.end(side).files);
        });
        json.give()?;
    }
    json.close(b']');
    json.close(b'}');
    Ok(())
}

fn places(json: &mut Json<'_>, both: &Both<'_>, places: [Option<At>; 2]) {
    json.object(|json| {
        for (side, at) in SIDES.into_iter().zip(places) {
            document::place(json.name(side.name()), at, both.end(side).files);
        }
    });
}

fn request(json: &mut Json<'_>, both: &Both<'_>, one: &RequestOfBoth) {
    json.object(|json| {
        json.name("stream").number(one.stream);
        json.name("name").some_text(one.name.as_deref());
        json.name("nanos").number(one.nanos);
        places(json.name("asked"), both, one.asked);
        places(json.name("answered"), both, one.answered);
        json.name("request").some_number(one.parts.map(|parts| parts.request));
        json.name("way_out").some_number(one.parts.map(|parts| parts.out));
        json.name("server").some_number(one.parts.map(|parts| parts.server));
        json.name("way_back").some_number(one.parts.map(|parts| parts.back));
        json.name("transfer").some_number(one.parts.map(|parts| parts.transfer));
        json.name("sent_again").object(|json| {
            for (side, again) in SIDES.into_iter().zip(one.again) {
                json.name(side.name()).object(|json| {
                    json.name("segments").number(again.segments);
                    json.name("bytes").number(again.bytes);
                    json.name("lost").number(again.lost);
                    json.name("nanos").number(again.nanos);
                });
            }
        });
    });
}

fn stall(json: &mut Json<'_>, both: &Both<'_>, one: &StallOfBoth<'_>) {
    let stall = one.stall;
    let ends = |json: &mut Json<'_>, here: Option<At>, there: Option<At>| {
        places(json, both, SIDES.map(|side| if side == stall.side { here } else { there }));
    };
    json.object(|json| {
        json.name("side").word(stall.side.name());
        json.name("stream").number(stall.stream);
        json.name("nanos").number(stall.nanos);
        ends(json.name("begin"), Some(stall.begin), one.begin_there);
        ends(json.name("end"), stall.end, one.end_there);
        json.name("shows_at_both").truth(one.shows_there);
        json.name("content_on_way").number(one.content_on_way);
        json.name("grants_on_way").number(one.grants_on_way);
        json.name("way_out").some_number(one.parts.map(|parts| parts.out));
        json.name("answer").some_number(one.parts.map(|parts| parts.answer));
        json.name("way_back").some_number(one.parts.map(|parts| parts.back));
        json.name("verdict").word(one.verdict.name());
        json.name("ask").some_word(one.ask().map(Side::name));
        json.name("text").text(&one.text);
    });
}
