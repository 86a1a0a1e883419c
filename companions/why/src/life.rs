//! The whole life of a request in one line: what took a twentieth of it, by sides (docs/WHY.md, 4).

use std::cmp::Reverse;

use explain::answer::{CauseKind, How, Nanos, Request, Share};
use reports::Side;

use crate::wording::{put_percent, put_time, SIDES};

/// Parts below a twentieth of a life are not told.
const LEAST_PART: i128 = 20;
const MOST_PARTS: usize = 14;
const NO_PART: Part = Part { nanos: 0, side: None, what: What::Unknown };

/// A part of a life.
#[derive(Clone, Copy)]
struct Part {
    nanos: Nanos,
    /// The side that it is of, and what of it, behind "the server" or "its".
    side: Option<Side>,
    what: What,
}

#[derive(Clone, Copy, PartialEq, Eq)]
enum What {
    Took,
    Window,
    Tcp,
    Sent,
    Others,
    Nothing,
    Unknown,
}

/// The parts of a life, the longest first, where one is named that held it back and several took a twentieth each.
pub fn life_of(request: &Request) -> Option<String> {
    let mut text = String::new();
    put_life(&mut text, request);
    Some(text).filter(|text| !text.is_empty())
}

/// Writes the parts of a life behind a text, or nothing.
pub fn put_life(text: &mut String, request: &Request) {
    let life = request.nanos();
    if matches!(request.cause.kind, CauseKind::None | CauseKind::Unseen) {
        return;
    }
    let counts = |one: &Part| one.nanos > 0 && i128::from(one.nanos) * LEAST_PART >= i128::from(life);
    let ([client, server], mut parts, mut count) =
        (SIDES.map(|side| parts_of(request, side)), [NO_PART; MOST_PARTS], 0);
    for one in client.into_iter().chain(server).filter(counts) {
        parts[count] = one;
        count += 1;
    }
    let parts = &mut parts[..count];
    if parts.len() < 2 {
        return;
    }
    parts.sort_by_key(|one| Reverse(one.nanos));
    put_time(text, life);
    let (mut between, mut before) = (": ", None);
    for one in parts {
        text.push_str(between);
        put_words(text, one, before);
        text.push(' ');
        put_time(text, one.nanos);
        text.push_str(" (");
        put_percent(text, one.nanos, life);
        text.push(')');
        (between, before) = (", ", one.side);
    }
}

fn parts_of(request: &Request, side: Side) -> [Part; 7] {
    let said = &request.sides[side as usize];
    let share = |share: Share| said.shares[share as usize];
    let part = |nanos, side, what| Part { nanos, side, what };
    // Who never answered a request that never ended need not have taken any time.
    let (other, ended) = (&request.sides[side.other() as usize], &request.ended);
    let waits_for_end = said.first.is_none() && ended.how != How::EndStream && other.end == ended.at;
    let took = if waits_for_end { 0 } else { said.waited };
    [
        part(took, Some(side), What::Took),
        part(said.stalled(), Some(side.other()), What::Window),
        part(share(Share::Tcp), None, What::Tcp),
        part(share(Share::Sending), Some(side), What::Sent),
        part(share(Share::Others), Some(side), What::Others),
        part(share(Share::Idle), Some(side), What::Nothing),
        part(share(Share::Unseen), None, What::Unknown),
    ]
}

fn put_words(text: &mut String, part: &Part, before: Option<Side>) {
    let is_same = part.side.is_some() && part.side == before;
    match part.side {
        Some(_) if is_same => text.push_str("it"),
        Some(side) => {
            text.push_str("the ");
            text.push_str(side.name());
        }
        None => {}
    }
    text.push_str(match part.what {
        What::Took => " took",
        What::Window if is_same => "s window",
        What::Window => "'s window",
        What::Tcp => "TCP",
        What::Sent => " sent for",
        What::Others => " sent other streams for",
        What::Nothing => " sent nothing on it for",
        What::Unknown => "not known",
    });
}
