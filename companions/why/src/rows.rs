//! The answer as rows for a database, which stand behind those of the report ([`reports::rows`]): a line of JSON for
//! each request, each of its directions, each fault, and each connection that was not audited, and for both legs of a
//! proxy (`legs_rows`). Connections of which something is inferred are not in that report, and have their rows here
//! (`joined_rows`). Letters that a terminal would act on are escapes in names, and long names are cut.

use std::io::{self, Write};

use explain::answer::{At, Direction, FaultSaid, Files, Request, Sure};
use reports::rows::row;
use reports::Side;

use crate::document::{cause_side, certainty_name, kind_name, why_name};
use crate::gates::why_not_audited;
use crate::joined_rows;
use crate::json::Json;
use crate::legs_rows;
use crate::phrases::{how_name, Phrases};
use crate::summing::Whole;
use crate::wording::{escaped, SIDES};

/// A few bytes may stand for a name of a megabyte, over and over again.
const LONGEST_NAME: usize = 1024;

pub fn write(whole: &Whole<'_>, to: &mut dyn Write) -> io::Result<()> {
    // As in the report, packets are numbered through all files of a capture.
    let files = &Files::default();
    let mut json = Json::new(to);
    for one in &whole.connections {
        let number = one.said.number;
        if let Some(inferred) = one.said.inferred() {
            joined_rows::write(&mut json, one.said, inferred, files)?;
        }
        if !one.said.is_audited() {
            row(&mut json, |json| reason(json, number, why_not_audited(one.said)))?;
        }
        for fault in &one.said.faults {
            row(&mut json, |json| certainty(json, number, fault))?;
        }
        for (place, request) in one.said.requests.iter().enumerate() {
            row(&mut json, |json| of_request(json, number, &request, &one.phrases, files))?;
            for side in SIDES {
                row(&mut json, |json| direction(json, number, &request, side, files))?;
            }
            legs_rows::request(&mut json, &request, (one.place, place), whole.answer)?;
        }
    }
    for (position, hop) in (1..).zip(&whole.answer.legs.hops) {
        row(&mut json, |json| legs_rows::hop(json, position, hop, whole.answer))?;
    }
    json.finish()
}

fn reason(json: &mut Json<'_>, connection: u64, why: &str) {
    json.word("reasons");
    json.number(connection);
    json.text(why);
}

fn certainty(json: &mut Json<'_>, connection: u64, fault: &FaultSaid) {
    let finding = &fault.finding;
    json.word("certainty");
    json.number(connection);
    json.number(finding.frame);
    json.word(finding.side.name());
    json.text(finding.kind.name());
    json.number(finding.stream);
    json.word(certainty_name(fault.certainty));
    json.some_text(Some(&fault.doubt));
    json.some_text(Some(&fault.set_text));
}

fn of_request(json: &mut Json<'_>, connection: u64, one: &Request, phrases: &Phrases<'_>, files: &Files) {
    let (cause, ended) = (&one.cause, &one.ended);
    json.word("requests");
    json.number(connection);
    json.number(one.stream);
    for name in [&one.name, &one.method, &one.path, &one.authority] {
        json.some(name.as_deref(), |json, name| json.text(&cut(name)));
    }
    json.some_number(one.status);
    json.some_number(one.grpc_status);
    json.some_number(Some(one.promised_on).filter(|stream| *stream > 0));
    place(json, Some(one.opened), files);
    json.number(one.nanos());
    json.number(one.stalled());
    json.number(u8::from(one.is_hung));
    json.word(how_name(ended.how));
    json.some_word(ended.side.map(Side::name));
    json.some_number(ended.code);
    place(json, ended.at, files);
    json.word(kind_name(cause.kind));
    json.some_word(why_name(cause.why));
    json.some_word(cause_side(cause));
    json.some_word(cause.ask.map(Side::name));
    json.number(cause.nanos);
    packet(json, cause.first, files);
    packet(json, cause.last, files);
    json.number(u8::from(cause.is_proved));
    json.text(&phrases.of(one));
    json.some_number(cause.needed);
    json.some_word(cause.sure.map(Sure::name));
    json.number(u8::from(one.was_open));
}

fn direction(json: &mut Json<'_>, connection: u64, request: &Request, side: Side, files: &Files) {
    let one: &Direction = &request.sides[side as usize];
    json.word("directions");
    json.number(connection);
    json.number(request.stream);
    json.word(side.name());
    json.number(one.nanos);
    json.number(one.content);
    json.number(one.stalls);
    one.shares.iter().for_each(|nanos| json.number(*nanos));
    packet(json, one.first, files);
    packet(json, one.end, files);
}

fn cut(name: &str) -> String {
    let name: String = name.chars().take(LONGEST_NAME).collect();
    escaped(&name).chars().take(LONGEST_NAME).collect()
}

/// Packet, frame and time.
fn place(json: &mut Json<'_>, at: Option<At>, files: &Files) {
    packet(json, at, files);
    json.some_number(at.map(|at| at.frame).filter(|frame| *frame > 0));
    json.some_number(at.map(|at| at.time));
}

fn packet(json: &mut Json<'_>, at: Option<At>, files: &Files) {
    json.some_number(at.map(|at| files.place(at.packet).1));
}
