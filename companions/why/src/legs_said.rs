//! Both legs of a proxy in words (docs/WHY.md, 14).

use std::fmt::Write;

use explain::answer::{
    Answer, Ask, Brake, HopSaid, Nanos, NoneWhy, PairGrade, Party, Request, RequestLegs, Who, Whose,
};
use reports::grouped;

use crate::legs::grade_name;
use crate::wording::{count, escaped, percent, time_of};

const BOTH_STALLED: &str = "both legs stalled";

/// A request of another leg, or another one's.
pub struct Named<'a> {
    pub connection: u64,
    pub stream: u32,
    pub client: &'a str,
    place: (usize, usize),
    answer: &'a Answer,
}

impl<'a> Named<'a> {
    pub fn of(place: (usize, usize), answer: &'a Answer) -> Named<'a> {
        let said = answer.connections.get(place.0);
        Named {
            connection: said.map_or(0, |said| said.number),
            stream: said.and_then(|said| said.requests.stream_of(place.1)).unwrap_or(0),
            client: said.map_or("", |said| &said.client),
            place,
            answer,
        }
    }

    /// The client or the upstream of a front request, or the proxy.
    pub fn address(party: Party, place: (usize, usize), answer: &'a Answer) -> Option<&'a str> {
        let said = answer.connections.get(place.0);
        match party {
            Party::Client => said.map(|said| said.client.as_str()),
            Party::Proxy => said.map(|said| said.server.as_str()),
            Party::Upstream => {
                let last = answer.legs.of(place.0, place.1)?.carried_by.last()?;
                answer.connections.get(last.connection).map(|said| said.server.as_str())
            }
        }
    }

    fn words(&self) -> String {
        let request = self.answer.connections.get(self.place.0).and_then(|said| said.requests.get(self.place.1));
        let name =
            request.and_then(|request| request.name).map_or(String::new(), |name| format!("{} ", escaped(&name)));
        format!("{name}(connection {} stream {})", self.connection, self.stream)
    }
}

/// A hop in a paragraph.
pub fn hop_words(one: &HopSaid, answer: &Answer) -> String {
    let HopSaid { front, back, requests, back_requests, grades, time, ask } = one;
    let grades = [
        (grades.sure, "sure"),
        (grades.likely, "likely"),
        (grades.ambiguous, "ambiguous"),
        (grades.none, "of no front request"),
    ];
    let graded: Vec<String> =
        grades.iter().filter(|one| one.0 > 0).map(|one| format!("{} {}", grouped(one.0), one.1)).collect();
    let graded = if graded.is_empty() { String::new() } else { format!(", {}", graded.join(", ")) };
    let fronts = count(*requests, "front request");
    let mut text = format!("proxy {front} to {back}: {fronts}, {} back{graded}.", grouped(*back_requests));
    let whole: Nanos = time.iter().sum();
    let mut shares: Vec<(Nanos, Who)> =
        time.iter().copied().zip(Who::ALL).filter(|one| one.0 > 0 && one.0 >= whole / 100).collect();
    shares.sort_by_key(|one| std::cmp::Reverse(one.0));
    if !shares.is_empty() {
        let said: Vec<String> =
            shares.iter().map(|(nanos, who)| format!("{} {}", who_words(*who), percent(*nanos, whole))).collect();
        let _ = write!(text, " Time: {}.", said.join(", "));
    }
    if let Some(found) = ask {
        let named = Named::of(found.of, answer);
        let _ = write!(text, " {}", hop_ask_words(found, &named, (front, back)));
    }
    text
}

fn hop_ask_words(found: &explain::answer::HopAsk, named: &Named<'_>, (front, back): (&str, &str)) -> String {
    let Ask { whose, party, nanos, of } = found.ask;
    let stood = match found.requests {
        0 => String::new(),
        requests => {
            let (requests, clients) = (count(requests, "request"), count(found.clients, "client"));
            format!("{requests} of {clients} stood behind it, for {} at most", time_of(found.longest))
        }
    };
    let held = format!("{} in all", time_of(nanos));
    match (party, of) {
        (Some(Party::Client), Some(_)) => format!("Ask the client {} of {}: {stood}.", named.client, named.words()),
        (Some(Party::Client), None) => {
            let beside = if stood.is_empty() { String::new() } else { format!("; {stood}") };
            format!("Ask the client {} of {}: {held}{beside}.", named.client, named.words())
        }
        (Some(Party::Upstream), Some(_)) => format!("Ask the upstream {back} of {}: {stood}.", named.words()),
        (Some(Party::Upstream), None) => format!("Ask the upstream {back}: {held}, as of {}.", named.words()),
        _ => format!("Ask the proxy {front}: {held}, {}, as of {}.", proxy_words(whose, None), named.words()),
    }
}

fn who_words(who: Who) -> &'static str {
    match who {
        Who::Client => "client",
        Who::Front => "way to the client",
        Who::Proxy => "proxy",
        Who::Other => "behind another request",
        Who::Back => "way to the upstream",
        Who::Upstream => "upstream",
        Who::Unseen => "not seen",
    }
}

fn proxy_words(whose: Whose, window: Option<i64>) -> String {
    match whose {
        Whose::ProxyBefore => "before it opened a request of its own".to_string(),
        Whose::ProxyHeld => "in which it held what it could have sent on".to_string(),
        Whose::ProxyStall => "in which it had sent on all, and its window was used up".to_string(),
        Whose::ProxyRoundTrip => {
            let bytes = window.map_or(String::new(), |window| format!(" of {}", count(window.max(0) as u64, "byte")));
            format!("its window{bytes} is below what a round trip of the back carries")
        }
        _ => "after the upstream's answer had ended".to_string(),
    }
}

/// What is said of a front request: whom to ask, what carried it, and what was passed on.
pub fn request_words(of: &Request, legs: &RequestLegs, place: (usize, usize), answer: &Answer) -> Vec<String> {
    let mut said = Vec::new();
    said.extend(legs.ask.map(|ask| ask_words(of, &ask, (legs, place), answer)));
    said.extend(carried_words(legs, answer));
    said.extend(legs.none_why.map(|why| none_words(why, legs.openings)));
    said.extend(longest(&legs.brakes, true).map(brake_words));
    said.extend(longest(&legs.brakes, false).map(brake_words));
    said
}

fn ask_words(of: &Request, ask: &Ask, (legs, place): (&RequestLegs, (usize, usize)), answer: &Answer) -> String {
    let took = format!("{} ({})", time_of(ask.nanos), percent(ask.nanos, of.nanos()));
    let other = ask.of.map_or(String::new(), |of| Named::of(of, answer).words());
    match ask.whose {
        Whose::Client => format!("ask the client: {took}, its window was used up"),
        Whose::Front => format!("ask nobody: {took} on the way from and to the client"),
        Whose::Back => format!("ask nobody: {took} on the way to the upstream and back"),
        Whose::Unseen => format!("{took} was not seen"),
        Whose::Upstream => format!("ask the upstream{}: {took}", of_upstream(place, answer)),
        Whose::FailedTry => format!("ask the upstream{}: {took} in a try that failed", of_upstream(place, answer)),
        Whose::OtherHeld => format!(
            "ask the client of {other}: stood behind it for {took}; the proxy sent on nothing of the back connection \
             that both share"
        ),
        Whose::OtherWindow => format!(
            "ask the client of {other}: stood behind it for {took}; it had most of the window of the connection that \
             both share"
        ),
        Whose::OtherUpload => format!(
            "ask the upstream of {other}: stood behind it for {took}; the proxy sent on nothing of the front \
             connection that both share"
        ),
        whose => format!("ask the proxy: {took}, {}", proxy_words(whose, legs.window)),
    }
}

fn of_upstream(place: (usize, usize), answer: &Answer) -> String {
    Named::address(Party::Upstream, place, answer).map_or(String::new(), |address| format!(" {address}"))
}

fn carried_words(legs: &RequestLegs, answer: &Answer) -> Option<String> {
    let last = legs.carried_by.last()?;
    let named = Named::of((last.connection, last.place), answer);
    let took = answer.connections.get(last.connection).and_then(|said| said.requests.get(last.place));
    let took = took.map_or(String::new(), |back| format!(", {}", time_of(back.nanos())));
    let mut text = format!("carried by connection {} stream {}{took}", named.connection, named.stream);
    match last.grade {
        PairGrade::Ambiguous => text += ", or another one that is as likely",
        grade => {
            let _ = write!(text, ", {}", grade_name(grade));
        }
    }
    let tries = legs.carried_by.len();
    if tries > 1 {
        let _ = write!(text, ", the last of {tries} tries");
    }
    Some(text)
}

fn none_words(why: NoneWhy, openings: u64) -> String {
    let after = match openings {
        0 => String::new(),
        openings => format!(", after {} without answer", count(openings, "opening")),
    };
    match why {
        NoneWhy::AnsweredItself => format!("the proxy answered itself{after}"),
        NoneWhy::NotSeen => "what carried it was not seen".to_string(),
        NoneWhy::Ambiguous => "what carried it cannot be told from others".to_string(),
    }
}

/// The brake that lasted longest, of one leg.
fn longest(brakes: &[Brake], is_by_client: bool) -> Option<&Brake> {
    let of_leg = brakes.iter().filter(|one| one.is_by_client == is_by_client);
    of_leg.max_by_key(|one| (one.passed_nanos(), one.nanos))
}

fn brake_words(one: &Brake) -> String {
    let to = if one.is_by_client { "upstream" } else { "client" };
    match one.passed_on.first() {
        Some(first) => {
            let (nanos, after, held) = (time_of(one.passed_nanos()), time_of(first.after), count(first.held, "byte"));
            format!("passed on to the {to}: {BOTH_STALLED} for {nanos}, {after} later; the proxy held {held} first")
        }
        None => format!("not passed on to the {to}: the proxy held up to {}", count(one.most_held, "byte")),
    }
}

/// What is said of a back request.
fn back_words(legs: &RequestLegs, answer: &Answer) -> Option<String> {
    let leg = legs.carries?;
    let named = Named::of((leg.connection, leg.place), answer);
    Some(format!("carries {}, {}", named.words(), grade_name(leg.grade)))
}

/// All that is said of a request of a hop, in lines.
pub fn legs_words(of: &Request, legs: &RequestLegs, place: (usize, usize), answer: &Answer) -> Vec<String> {
    request_words(of, legs, place, answer).into_iter().chain(back_words(legs, answer)).collect()
}

/// Whether a connection's request is shown with both its legs: a front one for which someone is asked, or all.
pub fn lines_of(request: &Request, place: (usize, usize), is_all: bool, answer: &Answer) -> Vec<String> {
    match answer.legs.of(place.0, place.1) {
        Some(legs) if is_all || legs.ask.is_some() => legs_words(request, legs, place, answer),
        _ => Vec::new(),
    }
}
