//! Whom to ask about time that was lost, and which requests are shown: those with most trouble.

use std::collections::{BinaryHeap, HashMap, HashSet};

use explain::answer::{CauseKind, CauseWhy, ConnectionSaid, Legs, Nanos, Request, RequestLegs, Share, StallWhy};
use explain::intervals::{disjoint, Interval};
use explain::ReportedConnection;
use reports::Side;

use crate::document::{kind_name, why_name};

/// So many requests are shown.
pub const MOST_REQUESTS: usize = 1024;
/// From so many intervals on their union is taken before there are more.
const MANY: usize = 1 << 12;

/// A peer, and what of it held back others.
#[derive(Clone, Debug, PartialEq, Eq, Hash)]
pub struct Matter {
    /// Nobody where the path took the time.
    pub side: Option<Side>,
    /// A server by its endpoint, and a client by its address, since its port is another one each time.
    pub peer: Option<String>,
    /// The words of a cause.
    pub kind: &'static str,
    pub why: Option<&'static str>,
}

/// How often, for how long at most, in how many connections, and for how long in all, each instant once.
#[derive(Clone, Debug, Default)]
pub struct Lost {
    pub times: u64,
    pub longest: Nanos,
    pub connections: u64,
    pub nanos: Nanos,
    intervals: Vec<Interval>,
    many: usize,
}

/// All that time was lost about, what took longest first.
#[derive(Debug, Default)]
pub struct Sums {
    places: HashMap<Matter, usize>,
    pub all: Vec<(Matter, Lost)>,
    /// The places of matters of the connection that is looked at.
    touched: Vec<usize>,
}

impl Sums {
    fn add(&mut self, matter: Matter, intervals: impl IntoIterator<Item = Interval>, nanos: Nanos) {
        let place = match self.places.get(&matter) {
            Some(place) => *place,
            None => {
                self.places.insert(matter.clone(), self.all.len());
                self.all.push((matter, Lost::default()));
                self.all.len() - 1
            }
        };
        let lost = &mut self.all[place].1;
        if lost.intervals.is_empty() {
            self.touched.push(place);
        }
        lost.times += 1;
        lost.longest = lost.longest.max(nanos);
        lost.intervals.extend(intervals);
        if lost.intervals.len() > lost.many.max(MANY) {
            lost.intervals = disjoint(std::mem::take(&mut lost.intervals));
            lost.many = 2 * lost.intervals.len();
        }
    }

    /// A connection is over.
    fn end_connection(&mut self) {
        for place in self.touched.drain(..) {
            let lost = &mut self.all[place].1;
            lost.connections += 1;
            let union = disjoint(std::mem::take(&mut lost.intervals));
            lost.nanos = union.iter().fold(lost.nanos, |sum, one| sum.saturating_add(one.1 - one.0));
        }
    }

    fn end(mut self) -> Vec<(Matter, Lost)> {
        self.all.sort_by_key(|one| std::cmp::Reverse(one.1.nanos));
        self.all
    }
}

/// What is shown of all requests: which of them, by connection, and what all of them come to.
#[derive(Debug, Default)]
pub struct Shown {
    pub requests: Vec<Vec<usize>>,
    pub asked: Vec<(Matter, Lost)>,
}

/// What puts requests first: a fault on their streams, that they hung, and for how long they were held back. What a
/// back request of a proxy waited for is told of the front one that it carried, which is before it.
type Rank = (bool, bool, bool, Nanos, Nanos, usize, usize);

impl Shown {
    pub fn of<'a>(connections: impl Iterator<Item = &'a ConnectionSaid>, legs: &Legs) -> Shown {
        let (mut sums, mut worst, mut number) = (Sums::default(), BinaryHeap::<Rank>::new(), 0);
        for (place, said) in connections.enumerate() {
            let faults: HashSet<u64> = said.faults.iter().map(|fault| fault.finding.stream).collect();
            for (at, request) in said.requests.iter().enumerate() {
                if let Some((matter, intervals)) = waited(said, &request) {
                    sums.add(matter, intervals, request.cause.nanos);
                }
                let is_faulty = faults.contains(&u64::from(request.stream));
                let (is_back, asked) = legs.of(place, at).map_or((false, 0), by_legs);
                let held = held(&request).max(asked);
                worst.push((!is_faulty, !request.is_hung, is_back, -held, -request.cause.nanos, place, at));
                if worst.len() > MOST_REQUESTS {
                    worst.pop();
                }
            }
            sums.end_connection();
            number = place + 1;
        }
        let mut requests = vec![Vec::new(); number];
        worst.into_iter().for_each(|(.., place, at)| requests[place].push(at));
        requests.iter_mut().for_each(|some| some.sort_unstable());
        Shown { requests, asked: sums.end() }
    }
}

/// Whether a request is a back one alone, and the time that someone took of a front one.
fn by_legs(legs: &RequestLegs) -> (bool, Nanos) {
    (legs.carries.is_some() && legs.carried_by.is_empty(), legs.ask.map_or(0, |ask| ask.nanos))
}

fn held(request: &Request) -> Nanos {
    let held = request.sides.iter().map(|side| side.stalled() + side.shares[Share::Tcp as usize]);
    held.fold(0, Nanos::saturating_add)
}

/// The shares of a direction's life that stand for a cause.
fn shares_of(request: &Request) -> Option<&'static [Share]> {
    match (request.cause.kind, request.cause.why) {
        (CauseKind::StreamWindow, _) => Some(&[Share::StreamStall]),
        (CauseKind::ConnectionWindow, _) => Some(&[Share::ConnectionStall]),
        (CauseKind::Tcp, _) => Some(&[Share::Tcp]),
        (CauseKind::Application, CauseWhy::Before) => Some(&[Share::Waiting]),
        (CauseKind::Application, _) => Some(&[Share::Idle]),
        (CauseKind::Path, _) => Some(&[Share::Sending, Share::Others]),
        (CauseKind::None | CauseKind::Unseen, _) => None,
    }
}

/// What held a request back, and when. Where its spans do not tell all of it, as of stalls that do not show, it is one
/// stretch of as much time from the first place on.
fn waited(said: &ConnectionSaid, request: &Request) -> Option<(Matter, Vec<Interval>)> {
    let (cause, shares) = (&request.cause, shares_of(request)?);
    let spans = request.sides[cause.side as usize].spans.iter().flatten().filter(|span| shares.contains(&span.share));
    let mut found: Vec<Interval> = spans.map(|span| (span.begin, span.end)).collect();
    if found.iter().map(|one| one.1 - one.0).sum::<Nanos>() < cause.nanos {
        let begin = cause.first.map_or(request.opened.time, |first| first.time);
        found = vec![(begin, begin.saturating_add(cause.nanos))];
    }
    // Both mean that the window is too small for the round trip.
    let why = match cause.why {
        CauseWhy::Unshown => CauseWhy::Stalls(StallWhy::RoundTrip),
        why => why,
    };
    let peer = cause.ask.map(|side| peer_of(&said.client, &said.server, side));
    Some((Matter { side: cause.ask, peer, kind: kind_name(cause.kind), why: why_name(why) }, found))
}

fn peer_of(client: &str, server: &str, side: Side) -> String {
    match side {
        Side::Server => server.to_string(),
        Side::Client => client.rsplit_once(':').map_or(client, |parts| parts.0).to_string(),
    }
}

/// Whom to ask by the stalls of a report, of which one without an end lasts up to the last finding.
pub fn asked_of_report(connections: &[ReportedConnection]) -> Vec<(Matter, Lost)> {
    let mut sums = Sums::default();
    for one in connections {
        for note in one.notes.iter().filter(|note| note.finding.kind.is_stall_begin()) {
            let begin = i64::try_from(note.finding.time).unwrap_or(0);
            let end = note.other.and_then(|other| i64::try_from(one.notes[other].finding.time).ok());
            let until = end.unwrap_or(one.until);
            if end == Some(begin) {
                continue; // nobody had to wait
            }
            let side = note.finding.side.other();
            let kind = if note.finding.stream == 0 { CauseKind::ConnectionWindow } else { CauseKind::StreamWindow };
            let why = if end.is_none() { CauseWhy::Stalls(StallWhy::GrantedNothing) } else { CauseWhy::None };
            let matter = Matter {
                side: Some(side),
                peer: Some(peer_of(&one.opening.client, &one.opening.server, side)),
                kind: kind_name(kind),
                why: why_name(why),
            };
            sums.add(matter, [(begin, until)], until.saturating_sub(begin));
        }
        sums.end_connection();
    }
    sums.end()
}
