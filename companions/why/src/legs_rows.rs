//! Both legs of a proxy as rows for a database (docs/FLEET.md): the hops, and of each front request of one who carried
//! it, whose its life was, and what held it back. No name and no id stands in them.

use std::io;

use explain::answer::{Answer, Brake, HopSaid, Party, Request, RequestLegs, Whose};
use reports::rows::row;

use crate::json::Json;
use crate::legs::{braked, grade_name, hop_address, likeness_name, none_name};
use crate::legs_said::Named;

/// Writes the row of a hop, which front requests name by its position.
pub fn hop(json: &mut Json<'_>, position: usize, one: &HopSaid, answer: &Answer) {
    let grades = &one.grades;
    json.word("hops");
    json.number(position);
    json.text(&one.front);
    json.text(&one.back);
    for number in [one.requests, one.back_requests, grades.sure, grades.likely, grades.ambiguous, grades.none] {
        json.number(number);
    }
    let ask = one.ask.as_ref();
    let named = ask.map(|found| Named::of(found.of, answer));
    let party = ask.and_then(|found| found.ask.party);
    json.some_word(party.map(Party::name));
    whose(json, ask.map(|found| found.ask.whose));
    json.some_number(ask.map(|found| found.ask.nanos));
    json.some_number(named.as_ref().map(|named| named.connection));
    json.some_number(named.as_ref().map(|named| named.stream));
    json.some_text(named.as_ref().and_then(|named| hop_address(party, named, one)));
    json.some_number(ask.map(|found| found.requests));
    json.some_number(ask.map(|found| found.clients));
    json.some_number(ask.map(|found| found.longest));
}

/// Writes the rows of a front request; a back one is named in those of what it carried.
pub fn request(json: &mut Json<'_>, of: &Request, place: (usize, usize), answer: &Answer) -> io::Result<()> {
    let legs = match answer.legs.of(place.0, place.1) {
        Some(legs) => legs,
        None => return Ok(()),
    };
    let (hop, key) = match legs.hop {
        Some(hop) => (hop + 1, (Named::of(place, answer).connection, of.stream)),
        None => return Ok(()),
    };
    row(json, |json| carried(json, key, hop, (place, legs), answer))?;
    for (one, nanos) in &legs.sums {
        row(json, |json| {
            begin(json, "leg_times", key);
            json.word(one.who().name());
            json.word(one.why().unwrap_or_default());
            json.number(*nanos);
        })?;
    }
    for (position, one) in (1_usize..).zip(&legs.brakes) {
        row(json, |json| brake(json, key, position, one, of))?;
    }
    Ok(())
}

fn begin(json: &mut Json<'_>, table: &'static str, (connection, stream): (u64, u32)) {
    json.word(table);
    json.number(connection);
    json.number(stream);
}

fn whose(json: &mut Json<'_>, one: Option<Whose>) {
    json.some_word(one.map(|one| one.who().name()));
    json.some_word(one.and_then(Whose::why));
}

/// Which back request answered it, and whom to ask.
fn carried(
    json: &mut Json<'_>,
    key: (u64, u32),
    hop: usize,
    (place, legs): ((usize, usize), &RequestLegs),
    answer: &Answer,
) {
    begin(json, "legs", key);
    json.number(hop);
    let last = legs.carried_by.last();
    json.some_word(last.map(|leg| grade_name(leg.grade)));
    json.some_word(last.map(|leg| likeness_name(leg.likeness)));
    named(json, last.map(|leg| (leg.connection, leg.place)), answer);
    json.number(legs.carried_by.len());
    json.some_word(legs.none_why.map(none_name));
    json.number(legs.openings);
    let ask = legs.ask.as_ref();
    let party = ask.and_then(|ask| ask.party);
    json.some_word(party.map(Party::name));
    whose(json, ask.map(|ask| ask.whose));
    json.some_number(ask.map(|ask| ask.nanos));
    let asked = ask.and_then(|ask| ask.of).unwrap_or(place);
    json.some_text(party.and_then(|party| Named::address(party, asked, answer)));
    let behind = legs.behind();
    named(json, behind.map(|behind| behind.0), answer);
    json.some_word(behind.and_then(|behind| behind.1.why()));
    json.some_number(behind.map(|behind| behind.2));
}

/// Connection and stream of another request.
fn named(json: &mut Json<'_>, place: Option<(usize, usize)>, answer: &Answer) {
    let other = place.map(|place| Named::of(place, answer));
    json.some_number(other.as_ref().map(|named| named.connection));
    json.some_number(other.as_ref().map(|named| named.stream));
}

/// What held the proxy back, and how much of that it passed on: all pieces, and how the first one began.
fn brake(json: &mut Json<'_>, key: (u64, u32), position: usize, one: &Brake, of: &Request) {
    begin(json, "brakes", key);
    json.number(position);
    json.word(braked(one));
    json.number(one.begin - of.opened.time);
    json.number(one.nanos);
    json.number(one.most_held);
    json.number(one.passed_on.len());
    json.number(one.passed_nanos());
    let first = one.passed_on.first();
    json.some_word(first.map(|piece| piece.by.name()));
    json.some_number(first.map(|piece| piece.held));
    json.some_number(first.map(|piece| piece.after));
}
