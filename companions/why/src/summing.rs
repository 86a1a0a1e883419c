//! The answer in one sentence, and what the requests of each connection come to.

use std::collections::{BinaryHeap, HashSet};

use explain::answer::{Answer, CauseKind, ConnectionSaid, Nanos, Request, Room};
use reports::grouped;

use crate::joined;
use crate::phrases::Phrases;
use crate::rules::{broken, errors};
use crate::wording::{count, time_of};

/// What all that was found comes to.
#[derive(Clone, Copy, Debug, PartialEq, Eq)]
pub enum Verdict {
    NothingAudited,
    Faults,
    /// Each of them can be doubted.
    DoubtfulFaults,
    /// A side said so, and no fault was found.
    Errors,
    Stalls,
    Clean,
}

impl Verdict {
    pub fn name(self) -> &'static str {
        match self {
            Verdict::NothingAudited => "nothing-audited",
            Verdict::Faults => "faults",
            Verdict::DoubtfulFaults => "doubtful-faults",
            Verdict::Errors => "errors",
            Verdict::Stalls => "stalls",
            Verdict::Clean => "clean",
        }
    }
}

/// The answer as all its forms need it: what is said, and sums and phrases of the requests of each connection.
pub struct Whole<'a> {
    pub answer: &'a Answer,
    pub connections: Vec<SummedConnection<'a>>,
    pub summary: Summary,
}

/// A connection, with what its requests come to, and the phrases about each.
pub struct SummedConnection<'a> {
    pub said: &'a ConnectionSaid,
    /// Its place in the answer.
    pub place: usize,
    pub tally: Tally,
    pub phrases: Phrases<'a>,
    /// The first of its requests by rank.
    pub worst: Vec<Rank>,
    /// Whether no cause is named, by requests.
    pub uncaused: Vec<bool>,
}

/// What puts requests first: that they hung, and for how long they were held back; then by stream and place.
pub type Rank = (bool, Nanos, u32, usize);

/// So many are shown where not all are asked for.
pub const MOST_REQUESTS: usize = 8;

pub fn rank(request: &Request, place: usize) -> Rank {
    (!request.is_hung, -request.trouble(), request.stream, place)
}

/// What the requests of a connection, or of all, come to.
#[derive(Clone, Copy, Debug, Default)]
pub struct Tally {
    pub requests: u64,
    /// Held back by windows, and of these hung.
    pub held: u64,
    pub hung: u64,
    /// Requests that windows held back, and something else longer.
    pub partly: u64,
    pub tcp: u64,
    /// The longest time for which one was held back, by no application.
    pub worst: Nanos,
}

#[derive(Clone, Debug)]
pub struct Summary {
    pub verdict: Verdict,
    pub text: String,
    pub audited: u64,
    pub faults: u64,
    pub doubtful: u64,
    pub tally: Tally,
    pub begin: Nanos,
    pub nanos: Nanos,
}

impl<'a> Whole<'a> {
    pub fn new(answer: &'a Answer) -> Whole<'a> {
        let mut room = Room::default();
        let places = 0..answer.connections.len();
        let connections: Vec<_> = places.map(|place| SummedConnection::new(place, answer, &mut room)).collect();
        let summary = summary_of(answer, &connections);
        Whole { answer, connections, summary }
    }

    pub fn audited(&self) -> impl Iterator<Item = &SummedConnection<'a>> {
        self.connections.iter().filter(|one| one.said.is_audited())
    }
}

impl<'a> SummedConnection<'a> {
    fn new(at: usize, answer: &'a Answer, room: &mut Room) -> SummedConnection<'a> {
        let said = &answer.connections[at];
        let (mut tally, mut phrases) = (Tally::default(), Phrases::new(said, &answer.files));
        let number = said.requests.len();
        let (mut worst, mut uncaused) = (BinaryHeap::with_capacity(number.min(MOST_REQUESTS)), vec![false; number]);
        said.requests.each_unnamed(room, |place, request| {
            tally.add(request);
            phrases.meet(request);
            uncaused[place] = request.cause.kind == CauseKind::None;
            let rank = rank(request, place);
            if worst.len() < MOST_REQUESTS {
                worst.push(rank);
            } else if let Some(mut last) = worst.peek_mut().filter(|last| **last > rank) {
                *last = rank;
            }
        });
        phrases.all_met();
        SummedConnection { said, place: at, tally, phrases, worst: worst.into_sorted_vec(), uncaused }
    }
}

/// Whether a window held a request back most.
pub fn is_held(request: &Request) -> bool {
    matches!(request.cause.kind, CauseKind::StreamWindow | CauseKind::ConnectionWindow)
}

impl Tally {
    fn add(&mut self, request: &Request) {
        self.requests += 1;
        self.held += u64::from(is_held(request));
        self.hung += u64::from(request.is_hung);
        self.partly += u64::from(request.held > 0 && !is_held(request));
        self.tcp += u64::from(request.cause.kind == CauseKind::Tcp);
        if !matches!(request.cause.kind, CauseKind::Application | CauseKind::Path) {
            self.worst = self.worst.max(request.trouble());
        }
    }

    fn and(self, other: &Tally) -> Tally {
        Tally {
            requests: self.requests + other.requests,
            held: self.held + other.held,
            hung: self.hung + other.hung,
            partly: self.partly + other.partly,
            tcp: self.tcp + other.tcp,
            worst: self.worst.max(other.worst),
        }
    }
}

fn summary_of(answer: &Answer, connections: &[SummedConnection<'_>]) -> Summary {
    let audited = answer.audited().count() as u64;
    let of_audited = connections.iter().filter(|one| one.said.is_audited());
    let tally = of_audited.fold(Tally::default(), |sum, one| sum.and(&one.tally));
    let faults: u64 = answer.audited().map(|one| one.faults.len() as u64).sum();
    let doubtful = answer.audited().flat_map(|one| &one.faults).filter(|fault| fault.is_doubtful()).count() as u64;
    let begin = answer.connections.iter().map(|one| one.begin).filter(|begin| *begin != 0).min().unwrap_or(0);
    let until = answer.connections.iter().map(|one| one.until).max().unwrap_or(0);
    let nanos = until.saturating_sub(begin).max(0);
    let verdict = match () {
        () if audited == 0 => Verdict::NothingAudited,
        () if faults > doubtful => Verdict::Faults,
        () if faults > 0 => Verdict::DoubtfulFaults,
        () if errors(answer).next().is_some() => Verdict::Errors,
        () if tally.held > 0 || tally.partly > 0 => Verdict::Stalls,
        () => Verdict::Clean,
    };
    let text = sentences(answer, audited, &tally, nanos).join(" ");
    Summary { verdict, text, audited, faults, doubtful, tally, begin, nanos }
}

fn sentences(answer: &Answer, audited: u64, tally: &Tally, nanos: Nanos) -> Vec<String> {
    if audited == 0 {
        return vec!["Nothing was audited, so nothing is said of flow control.".to_string()];
    }
    // What follows a gap counts with its connection.
    let root = |one: &ConnectionSaid| {
        let joined = one.joined.as_ref();
        joined.and_then(|joined| joined.behind.connection()).unwrap_or(one.number)
    };
    let roots: HashSet<u64> = answer.audited().map(root).collect();
    let connections = count(roots.len() as u64, "connection");
    let mut said =
        vec![format!("{connections}, {}, {}.", count(tally.requests, "request"), time_of(nanos)), broken(answer)];
    said.push(if tally.held > 0 {
        let hung = if tally.hung > 0 { format!(", of which {} hung", grouped(tally.hung)) } else { String::new() };
        format!("Flow control held back {}{hung}.", count(tally.held, "request"))
    } else if tally.partly > 0 {
        format!("Flow control took a lesser part of {}.", count(tally.partly, "request"))
    } else if answer.audited().any(|one| !one.stalls.is_empty()) {
        "Flow control held back no request for as long as a millisecond.".to_string()
    } else if joined::proved(answer).is_some() {
        "No side was seen to use up its credit.".to_string()
    } else {
        "No side used up its credit.".to_string()
    });
    if tally.tcp > 0 {
        said.push(format!("TCP held back {}.", count(tally.tcp, "request")));
    }
    said
}
