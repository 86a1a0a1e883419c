//! Gathers what is known of requests from an answer.

use std::collections::HashMap;

use cutter::Numbers;

use crate::answer::{is_pushed, Answer, ConnectionSaid, How, Nanos, Outcome};
use crate::legs::course::SLACK;
use crate::legs::facts::{Facts, LegConnection, Request, Unread, Way, Whole};
use crate::legs::print::may_be_one;
use crate::names::Texts;
use crate::seen::Seen;
use crate::stream::Stream;

/// Why a connection carried nothing.
const WITHOUT_ANSWER: [&str; 2] = ["refused-port", "no-answer"];
const SILENT: &str = "silent";
/// Connections of which not even the ends are known.
const UNKNOWN: [&str; 2] = ["unopened", "one-direction"];
/// Two copies of a connection begin so soon one after the other.
const TWICE: Nanos = 100_000_000;
/// So many are looked at that begin alike.
const MOST_ALIKE: usize = 64;

/// Numbers of listeners by their names.
#[derive(Default)]
struct Listeners<'a> {
    numbers: HashMap<&'a str, usize>,
    names: Vec<String>,
}

impl<'a> Listeners<'a> {
    fn number(&mut self, name: &'a str) -> usize {
        let Listeners { numbers, names } = self;
        *numbers.entry(name).or_insert_with(|| {
            names.push(name.to_string());
            names.len() - 1
        })
    }
}

/// The last part of each path, by numbers of texts.
struct LastParts<'a> {
    texts: Option<&'a Texts>,
    /// By numbers of paths; 0 where it was not asked for yet.
    of_paths: Vec<u32>,
    numbers: HashMap<&'a str, u32>,
}

impl LastParts<'_> {
    fn of(&mut self, path: u32) -> u32 {
        let LastParts { texts, of_paths, numbers } = self;
        let text = match texts.and_then(|texts| texts.get(path)) {
            Some(text) => text,
            None => return 0,
        };
        let index = path as usize;
        if of_paths.len() <= index {
            of_paths.resize(index + 1, 0);
        }
        if of_paths[index] == 0 {
            let next = numbers.len() as u32 + 1;
            of_paths[index] = *numbers.entry(last_part(text)).or_insert(next);
        }
        of_paths[index]
    }
}

fn last_part(path: &str) -> &str {
    let (target, _) = path.split_once('?').unwrap_or((path, ""));
    let target = target.trim_end_matches('/');
    target.rsplit_once('/').map_or(target, |parts| parts.1)
}

pub struct Gathering<'a> {
    answer: &'a Answer,
    /// All but requests.
    facts: Facts,
    last_parts: LastParts<'a>,
    /// Which connections are captured before, at another place.
    copies: Vec<bool>,
}

impl<'a> Gathering<'a> {
    pub fn new(answer: &'a Answer) -> Gathering<'a> {
        let mut listeners = Listeners::default();
        let mut facts = Facts {
            has_unknown: answer.not_audited.iter().any(|one| UNKNOWN.contains(&one.reason.as_str())),
            ..Facts::default()
        };
        for said in &answer.connections {
            let listener = listeners.number(&said.server);
            facts.connections.push(LegConnection { listener, is_doubtful: is_doubtful(said) });
            if !said.is_audited() {
                unread(said, listener, &mut facts);
            }
        }
        facts.openings.sort_unstable();
        facts.listeners = listeners.names;
        let texts = answer.connections.iter().find_map(|one| one.requests.texts());
        let last_parts = LastParts { texts, of_paths: Vec::new(), numbers: HashMap::new() };
        Gathering { answer, facts, last_parts, copies: copies(answer) }
    }

    /// The requests that were answered to their ends.
    pub fn wholes(&mut self) -> Vec<Whole> {
        let Gathering { answer, facts, last_parts, copies } = self;
        let mut wholes = Vec::with_capacity(answer.connections.iter().map(|one| one.requests.len()).sum());
        for ((said, is_copy), connection) in answer.connections.iter().zip(copies).zip(&facts.connections) {
            let (briefs, listener) = (said.requests.take_briefs(), connection.listener as u32);
            if said.is_audited() && !*is_copy {
                wholes.extend(briefs.map(|brief| Whole { listener, last: last_parts.of(brief.path), brief }));
            }
        }
        wholes
    }

    /// All that is known, with the requests of some listeners, by the times of their openings.
    pub fn facts(mut self, is_wanted: impl Fn(usize) -> bool) -> Facts {
        let connections = self.answer.connections.iter().zip(&self.facts.connections);
        let wanted = connections.filter(|one| is_wanted(one.1.listener));
        let mut requests = Vec::with_capacity(wanted.map(|one| one.0.requests.len()).sum());
        self.each(is_wanted, |one| requests.push(one));
        requests.sort_by_key(|one| one.opened);
        Facts { requests, ..self.facts }
    }

    /// Gives each request of some listeners.
    fn each(&mut self, is_wanted: impl Fn(usize) -> bool, mut give: impl FnMut(Request)) {
        let mut room = Stream::empty();
        let Gathering { answer, facts, last_parts, copies } = self;
        for (at, said) in answer.connections.iter().enumerate() {
            if !said.is_audited() || copies[at] || !is_wanted(facts.connections[at].listener) {
                continue;
            }
            for place in 0..said.requests.len() {
                let seen = said.requests.outline(place, &mut room);
                if let Some(one) = seen.and_then(|seen| request(seen, &room, last_parts)) {
                    give(Request { connection: at, place, ..one });
                }
            }
        }
    }
}

fn is_doubtful(said: &ConnectionSaid) -> bool {
    let is_lost = !said.gaps.is_empty() || !said.uncaptured.is_empty();
    is_lost || said.late > SLACK as u64 || said.joined.is_some() || said.stopped_at.is_some()
}

fn unread(said: &ConnectionSaid, listener: usize, facts: &mut Facts) {
    let reason = said.reason.as_str();
    if WITHOUT_ANSWER.contains(&reason) || said.outcome == Outcome::NoHandshake {
        facts.openings.push(said.opened.time);
    } else if reason != SILENT {
        facts.unread.push(Unread { listener, begin: said.opened.time, until: said.until.max(said.opened.time) });
    }
}

/// Which connections are captured before, at another place.
fn copies(answer: &Answer) -> Vec<bool> {
    let mut seen: HashMap<(u64, u64), Vec<&ConnectionSaid>, Numbers> = HashMap::default();
    let mut found = Vec::with_capacity(answer.connections.len());
    for said in &answer.connections {
        let [client, server] = &said.print;
        let before = seen.entry((client.frames, server.frames)).or_default();
        let near = before.iter().rev().take_while(|one| is_near(one, said)).take(MOST_ALIKE);
        let is_copy = |one: &ConnectionSaid| one.server != said.server && may_be_one(&one.print, &said.print);
        found.push(said.is_audited() && near.into_iter().any(|one| is_copy(one)));
        before.extend(Some(said).filter(|said| said.is_audited()));
    }
    found
}

fn is_near(one: &ConnectionSaid, other: &ConnectionSaid) -> bool {
    one.opened.time.abs_diff(other.opened.time) < TWICE as u64
}

/// What is known of a request that a client opened.
fn request(seen: &Seen, stream: &Stream, last_parts: &mut LastParts<'_>) -> Option<Request> {
    if is_pushed(stream.number) || seen.about.was_open(stream.number) {
        return None;
    }
    let asked = stream.request.unwrap_or_default();
    let ways = [0, 1].map(|side| way(seen, stream, side));
    Some(Request {
        connection: 0,
        place: 0,
        stream: stream.number,
        opened: stream.opened.time,
        until: ways.iter().map(until).fold(stream.opened.time, Nanos::max),
        method: asked.method,
        path: asked.path,
        last: last_parts.of(asked.path),
        ids: asked.ids,
        status: stream.answer.fields.and_then(|fields| fields.status),
        ways,
    })
}

/// What is open may last as long as any other.
fn until(way: &Way) -> Nanos {
    if way.is_open {
        Nanos::MAX
    } else {
        way.end
    }
}

fn way(seen: &Seen, stream: &Stream, side: usize) -> Way {
    let one = &stream.sides[side];
    let ended = seen.end_of(stream, side);
    let end = ended.at.map_or(stream.opened.time, |at| at.time);
    Way {
        content: one.content.saturating_sub(one.padding),
        first: one.first.map(|first| first.time),
        end,
        is_whole: ended.how == How::EndStream,
        is_open: ended.how == How::Capture || seen.is_end_unseen(&ended, end),
        has_content: one.content > 0,
    }
}

#[cfg(test)]
mod tests {
    use super::*;

    #[test]
    fn last_parts_of_paths() {
        let parts = ["/a/b", "/b/", "/x/y/b?c=/d", "b", "/", "", "/?q"].map(last_part);
        assert_eq!(parts, ["b", "b", "b", "b", "", "", ""]);
    }
}
