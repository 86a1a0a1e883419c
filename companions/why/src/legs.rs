//! Both legs of a proxy in JSON (docs/WHY.md, 14).

use explain::answer::{
    Answer, Brake, HopSaid, Leg, Likeness, Nanos, NoneWhy, PairGrade, Part, Party, PassedOn, Request, RequestLegs, Who,
    Whose,
};

use crate::json::Json;
use crate::legs_said::{hop_words, legs_words, Named};

pub fn hop(json: &mut Json<'_>, one: &HopSaid, answer: &Answer) {
    json.object(|json| {
        json.name("front").text(&one.front);
        json.name("back").text(&one.back);
        json.name("requests").number(one.requests);
        json.name("back_requests").number(one.back_requests);
        json.name("grades").object(|json| {
            json.name("sure").number(one.grades.sure);
            json.name("likely").number(one.grades.likely);
            json.name("ambiguous").number(one.grades.ambiguous);
            json.name("none").number(one.grades.none);
        });
        json.name("time").object(|json| {
            for (who, nanos) in Who::ALL.iter().zip(one.time) {
                json.name(who.name()).number(nanos);
            }
        });
        json.name("ask").some(one.ask.as_ref(), |json, found| {
            let named = Named::of(found.of, answer);
            json.object(|json| {
                json.name("party").some_word(found.ask.party.map(Party::name));
                whose(json, found.ask.whose);
                json.name("nanos").number(found.ask.nanos);
                json.name("requests").number(found.requests);
                json.name("connection").number(named.connection);
                json.name("stream").number(named.stream);
                json.name("address").some_text(hop_address(found.ask.party, &named, one));
            });
        });
        json.name("text").text(&hop_words(one, answer));
    });
}

/// What a party of a hop is known by.
pub fn hop_address<'a>(party: Option<Party>, named: &Named<'a>, hop: &'a HopSaid) -> Option<&'a str> {
    match party? {
        Party::Client => Some(named.client),
        Party::Proxy => Some(&hop.front),
        Party::Upstream => Some(&hop.back),
    }
}

fn whose(json: &mut Json<'_>, one: Whose) {
    json.name("who").word(one.who().name());
    json.name("why").some_word(one.why());
}

/// What is said of a request's legs, or null.
pub fn request(json: &mut Json<'_>, of: &Request, place: (usize, usize), answer: &Answer) {
    json.some(answer.legs.of(place.0, place.1), |json, legs| {
        json.object(|json| {
            json.name("carries").some(legs.carries.as_ref(), |json, one| leg(json, one, answer));
            let tries = Some(&legs.carried_by).filter(|tries| !tries.is_empty());
            json.name("carried_by")
                .some(tries, |json, tries| json.list(tries, |json, one| carrier(json, one, of.opened.time, answer)));
            json.name("none_why").some_word(legs.none_why.map(none_name));
            json.name("openings").number(legs.openings);
            let parts = legs.parts.as_ref();
            json.name("parts").some(parts, |json, parts| json.list(parts, |json, one| part(json, one, of)));
            let sums = Some(&legs.sums).filter(|sums| !sums.is_empty());
            json.name("sums").some(sums, |json, sums| {
                json.list(sums, |json, (one, nanos)| {
                    json.object(|json| {
                        whose(json, *one);
                        json.name("nanos").number(*nanos);
                    });
                });
            });
            ask(json, (place, legs), answer);
            behind(json, legs, answer);
            json.name("brakes").list(&legs.brakes, |json, one| brake(json, one, of));
            json.name("text").list(legs_words(of, legs, place, answer), |json, line| json.text(&line));
        });
    });
}

fn leg(json: &mut Json<'_>, one: &Leg, answer: &Answer) {
    json.object(|json| of_leg(json, one, answer));
}

/// Writes a back request, and when it lived, from the front one's opening on.
fn carrier(json: &mut Json<'_>, one: &Leg, opened: Nanos, answer: &Answer) {
    let said = answer.connections.get(one.connection).and_then(|said| said.requests.get(one.place));
    json.object(|json| {
        of_leg(json, one, answer);
        json.name("begin").number(said.as_ref().map_or(0, |said| said.opened.time - opened));
        json.name("nanos").number(said.map_or(0, |said| said.nanos()));
    });
}

fn of_leg(json: &mut Json<'_>, one: &Leg, answer: &Answer) {
    let named = Named::of((one.connection, one.place), answer);
    json.name("connection").number(named.connection);
    json.name("stream").number(named.stream);
    json.name("grade").word(grade_name(one.grade));
    json.name("why").word(likeness_name(one.likeness));
}

fn part(json: &mut Json<'_>, one: &Part, of: &Request) {
    json.open(b'[');
    json.number(one.begin - of.opened.time);
    json.number(one.end - one.begin);
    json.word(one.whose.who().name());
    json.some_word(one.whose.why());
    json.close(b']');
}

fn ask(json: &mut Json<'_>, (place, legs): ((usize, usize), &RequestLegs), answer: &Answer) {
    json.name("ask").some(legs.ask, |json, found| {
        let other = found.of.map(|of| Named::of(of, answer));
        let asked = found.of.unwrap_or(place);
        json.object(|json| {
            json.name("party").some_word(found.party.map(Party::name));
            whose(json, found.whose);
            json.name("nanos").number(found.nanos);
            json.name("connection").some_number(other.as_ref().map(|named| named.connection));
            json.name("stream").some_number(other.as_ref().map(|named| named.stream));
            json.name("address").some_text(found.party.and_then(|party| Named::address(party, asked, answer)));
        });
    });
}

fn behind(json: &mut Json<'_>, legs: &RequestLegs, answer: &Answer) {
    json.name("behind").some(legs.behind(), |json, (place, whose, nanos)| {
        let named = Named::of(place, answer);
        json.object(|json| {
            json.name("connection").number(named.connection);
            json.name("stream").number(named.stream);
            json.name("how").some_word(whose.why());
            json.name("nanos").number(nanos);
        });
    });
}

fn brake(json: &mut Json<'_>, one: &Brake, of: &Request) {
    let opened = of.opened.time;
    json.object(|json| {
        json.name("side").word(braked(one));
        json.name("begin").number(one.begin - opened);
        json.name("nanos").number(one.nanos);
        json.name("most_held").number(one.most_held);
        json.name("passed_on").list(&one.passed_on, |json, piece| {
            let PassedOn { begin, nanos, by, held, after } = *piece;
            json.object(|json| {
                json.name("begin").number(begin - opened);
                json.name("nanos").number(nanos);
                json.name("by").word(by.name());
                json.name("held").number(held);
                json.name("after").number(after);
            });
        });
    });
}

/// The party that did not take what the proxy held.
pub fn braked(one: &Brake) -> &'static str {
    if one.is_by_client {
        Party::Client.name()
    } else {
        Party::Upstream.name()
    }
}

pub fn grade_name(grade: PairGrade) -> &'static str {
    match grade {
        PairGrade::Sure => "sure",
        PairGrade::Likely => "likely",
        PairGrade::Ambiguous => "ambiguous",
    }
}

pub fn likeness_name(likeness: Likeness) -> &'static str {
    match likeness {
        Likeness::Id => "id",
        Likeness::Path => "path",
        Likeness::LastPart => "last-part",
        Likeness::Content => "content",
    }
}

pub fn none_name(why: NoneWhy) -> &'static str {
    match why {
        NoneWhy::AnsweredItself => "answered-itself",
        NoneWhy::NotSeen => "not-seen",
        NoneWhy::Ambiguous => "ambiguous",
    }
}
