//! Tells of each request of a hop its other leg, and of each front one whose its life was.

use std::collections::HashMap;
use std::ops::Range;

use cutter::Numbers;

use crate::answer::{Answer, CauseWhy, ConnectionSaid, Nanos};
use crate::legs::account::{account, Leg, LegKnown, Legs as Both, Lived, Stretch};
use crate::legs::asking::{ask_of, hop_ask};
use crate::legs::course::ByteCourse;
use crate::legs::facts::{self, Facts};
use crate::legs::hops::Hop;
use crate::legs::others::{Others, Sharing};
use crate::legs::pairs::{Pair, Pairs};
use crate::legs::said::{
    Brake, Grades, HopSaid, Leg as Other, Legs, NoneWhy, PairGrade, Part, Place, RequestLegs, Who, Whose,
};
use crate::stream::Stream;

/// Parts that are told of a life; of more there are sums alone.
const MOST_PARTS: usize = 512;

pub struct Telling<'a> {
    pub answer: &'a Answer,
    pub facts: &'a Facts,
    /// The courses of each request, in both directions.
    pub courses: &'a [[ByteCourse; 2]],
    pub hops: &'a [Hop],
    pub pairs: &'a Pairs,
}

/// A front request whose life is divided, with the back requests that carried it: the last one was answered.
struct Carried<'a> {
    front: usize,
    tries: &'a [(usize, usize)],
    brakes: Vec<Brake>,
    /// Its stretches among those of all, where there are not too many.
    stretches: Option<Range<usize>>,
    /// The window of the back request, where it is too small for the way.
    window: Option<i64>,
}

/// Courses that are compared in the place of others.
type Outlines = HashMap<usize, [ByteCourse; 2], Numbers>;

impl Carried<'_> {
    fn back(&self) -> Option<usize> {
        self.tries.last().map(|one| one.1)
    }
}

impl Telling<'_> {
    pub fn told(&self) -> Legs {
        let mut legs = self.first();
        let outlines = self.outlines();
        let tries = self.tries();
        let mut carried = self.to_divide(&legs, &tries);
        let (mut stretches, mut rooms) = (Vec::new(), [(); 2].map(|()| Stream::empty()));
        for one in &mut carried {
            let begin = stretches.len();
            (one.brakes, one.window) = self.divide(one, &outlines, &mut rooms, &mut stretches);
            match stretches.len() - begin > MOST_PARTS {
                true => stretches.truncate(begin),
                false => one.stretches = Some(begin..stretches.len()),
            }
        }
        let others = self.others(&carried, &outlines);
        let (mut again, mut parts) = (Vec::new(), Vec::new());
        for mut one in carried {
            let of_it = match one.stretches.take() {
                Some(range) => &stretches[range],
                None => {
                    again.clear();
                    self.divide(&one, &outlines, &mut rooms, &mut again);
                    &again
                }
            };
            self.tell(one, of_it, &others, &mut parts, &mut legs);
        }
        legs.hops = self.hops.iter().enumerate().map(|(number, hop)| self.hop(number, *hop, &legs)).collect();
        legs
    }

    fn place(&self, at: usize) -> Place {
        let one = &self.facts.requests[at];
        (one.connection, one.place)
    }

    fn is_front(&self, one: &facts::Request) -> bool {
        let listener = self.facts.listener(one);
        self.hops.iter().any(|hop| hop.front == listener)
    }

    /// Pairs, and why there is none.
    fn first(&self) -> Legs {
        let mut legs = Legs::at(self.facts.requests.iter().map(|one| (one.connection, one.place)));
        let all = legs.all_mut();
        for pair in &self.pairs.all {
            let Pair { front, back, grade, likeness, .. } = *pair;
            let leg = |(connection, place)| Other { connection, place, grade, likeness };
            let tries = &mut all[front].carried_by;
            if tries.is_empty() {
                tries.reserve_exact(1);
            }
            tries.push(leg(self.place(back)));
            all[back].carries = Some(leg(self.place(front)));
        }
        let unseen = self.unseen();
        let requests = self.facts.requests.iter().enumerate();
        for ((at, one), said) in requests.zip(all).filter(|one| self.is_front(one.0 .1)) {
            if said.carried_by.is_empty() {
                said.none_why = Some(match () {
                    () if self.pairs.ambiguous.contains(&at) => NoneWhy::Ambiguous,
                    () if unseen.holds(one) || !one.is_answered() || self.facts.is_doubtful(one) => NoneWhy::NotSeen,
                    () => NoneWhy::AnsweredItself,
                });
                let until = |time: Nanos| self.facts.openings.partition_point(|opening| *opening <= time);
                said.openings = (until(one.until) - until(one.opened).min(until(one.until))) as u64;
            }
            said.hop = self.hop_of(one, said.carried_by.last());
        }
        legs
    }

    fn listener_of(&self, leg: &Other) -> Option<usize> {
        self.facts.connections.get(leg.connection).map(|one| one.listener)
    }

    /// The hop of what answered a front request, or its listener's first.
    fn hop_of(&self, front: &facts::Request, answered: Option<&Other>) -> Option<usize> {
        let (front, back) = (self.facts.listener(front), answered.and_then(|leg| self.listener_of(leg)));
        self.hops.iter().position(|hop| hop.front == front && back.map_or(true, |back| hop.back == back))
    }

    /// When connections were there that may have carried what was not seen.
    fn unseen(&self) -> Unseen {
        let is_front = |listener: usize| self.hops.iter().any(|hop| hop.front == listener);
        let unread = self.facts.unread.iter().filter(|one| !is_front(one.listener)).map(|one| (one.begin, one.until));
        let is_back = |listener: usize| self.hops.iter().any(|hop| hop.back == listener);
        let connections = self.answer.connections.iter().zip(&self.facts.connections);
        let doubtful = connections.filter(|one| one.1.is_doubtful && is_back(one.1.listener));
        let mut times: Vec<(Nanos, Nanos)> = unread.chain(doubtful.map(|one| (begin_of(one.0), one.0.until))).collect();
        times.sort_unstable();
        let latest = times.iter().scan(Nanos::MIN, |latest, time| {
            *latest = time.1.max(*latest);
            Some(*latest)
        });
        Unseen { is_all: self.facts.has_unknown, latest: latest.collect(), times }
    }

    /// Where an id tells a pair whose contents differ, heads and ends alone are compared.
    fn outlines(&self) -> Outlines {
        let content = |at: usize| self.facts.requests[at].ways.map(|way| way.content);
        let is_changed = |pair: &&Pair| {
            let [front, back] = [pair.front, pair.back].map(content);
            let is_whole = [pair.front, pair.back].iter().all(|at| self.facts.requests[*at].is_whole());
            pair.is_answer && is_whole && front[1] != back[1] || back[0] > front[0]
        };
        let both = self.pairs.all.iter().filter(is_changed).flat_map(|pair| [pair.front, pair.back]);
        let outline = |at: usize| (at, [0, 1].map(|side: usize| self.courses[at][side].outline()));
        both.map(outline).collect()
    }

    /// Front requests with the back ones that carried them, in order.
    fn tries(&self) -> Vec<(usize, usize)> {
        let mut tries: Vec<_> = self.pairs.all.iter().map(|pair| (pair.front, pair.back)).collect();
        tries.sort_unstable();
        tries
    }

    /// Front requests of which no pair is ambiguous, or that the proxy answered itself.
    fn to_divide<'b>(&self, legs: &Legs, mut tries: &'b [(usize, usize)]) -> Vec<Carried<'b>> {
        let requests = self.facts.requests.iter().enumerate().zip(legs.all());
        let fronts = requests.filter(|one| self.is_front(one.0 .1));
        let carried = fronts.filter_map(|((front, _), said)| {
            let is_told = said.carried_by.iter().all(|leg| leg.grade != PairGrade::Ambiguous);
            let is_divided = match said.none_why {
                None => is_told,
                Some(why) => why == NoneWhy::AnsweredItself,
            };
            let (its, rest) = tries.split_at(said.carried_by.len());
            tries = rest;
            is_divided.then_some(Carried { front, tries: its, brakes: Vec::new(), stretches: None, window: None })
        });
        carried.collect()
    }

    fn courses_of<'b>(&'b self, at: usize, outlines: &'b Outlines) -> &'b [ByteCourse; 2] {
        let outline = if outlines.is_empty() { None } else { outlines.get(&at) };
        outline.unwrap_or(&self.courses[at])
    }

    /// A leg of a request that is read into some room.
    fn said<'b>(&self, at: usize, room: &'b mut Stream) -> Option<Lived<'b>> {
        let one = &self.facts.requests[at];
        let ends = [0, 1].map(|side: usize| one.ways[side].end.max(one.opened));
        let known =
            LegKnown { opened: one.opened, ends, has_content: [0, 1].map(|side: usize| one.ways[side].has_content) };
        self.answer.connections.get(one.connection)?.requests.leg(one.place, &known, room)
    }

    /// Adds the stretches of a life. What held it back, and the window that was too small.
    fn divide(
        &self,
        one: &Carried<'_>,
        outlines: &Outlines,
        rooms: &mut [Stream; 2],
        stretches: &mut Vec<Stretch>,
    ) -> (Vec<Brake>, Option<i64>) {
        let [room, other] = rooms;
        let front = match self.said(one.front, room) {
            Some(front) => front,
            None => return Default::default(),
        };
        let round_trip = |at: usize| {
            let said = self.answer.connections.get(self.facts.requests[at].connection);
            said.and_then(|said| said.round_trip.nanos()).unwrap_or(0)
        };
        let last = one.back();
        let back = last.and_then(|at| self.said(at, other));
        let times = |one: &(usize, usize)| (self.facts.requests[one.1].opened, self.facts.requests[one.1].until);
        let failed: Vec<_> = one.tries.iter().rev().skip(1).map(times).collect();
        let leg = |at: usize, said| Leg { said, courses: self.courses_of(at, outlines), round_trip: round_trip(at) };
        let legs = Both {
            front: leg(one.front, &front),
            tries: &failed,
            back: last.zip(back.as_ref()).map(|(at, said)| leg(at, said)),
        };
        let brakes = account(&legs, stretches);
        let unshown = back.filter(|back| back.cause.why == CauseWhy::Unshown);
        (brakes, unshown.map(|back| back.cause.window))
    }

    /// Connections that pairs share, ready to tell behind which one a request stood.
    fn others<'b>(&'b self, carried: &[Carried<'_>], outlines: &'b Outlines) -> Others<'b> {
        let mut others = Others::default();
        let is_of_connection = |said: &ConnectionSaid| said.stalls.iter().any(|stall| stall.stream == 0);
        if carried.iter().all(|one| one.brakes.is_empty()) && !self.answer.connections.iter().any(is_of_connection) {
            return others;
        }
        for one in carried {
            if let Some(back) = one.back() {
                let [front, back] = [one.front, back];
                let [here, there] = [front, back].map(|at| self.courses_of(at, outlines));
                let requests = [front, back].map(|at| &self.facts.requests[at]);
                let (opened, until) = (requests[0].opened, requests[0].until);
                let sharing = |came, sent| Sharing { front, place: self.place(front), opened, until, came, sent };
                others.add(0, requests[0].connection, sharing(&here[0], &there[0]), &one.brakes);
                others.add(1, requests[1].connection, sharing(&there[1], &here[1]), &one.brakes);
            }
        }
        others.ready(|connection| self.answer.connections.get(connection).map_or(&[][..], |said| &said.stalls));
        others
    }

    /// Tells of a life by its stretches; parts are put together in some room.
    fn tell(
        &self,
        one: Carried<'_>,
        stretches: &[Stretch],
        others: &Others<'_>,
        parts: &mut Vec<Part>,
        legs: &mut Legs,
    ) {
        let connection = |at: usize| self.facts.requests[at].connection;
        let ends = (connection(one.front), one.back().map(connection));
        parts.clear();
        stretches.iter().for_each(|stretch| others.parts(stretch, ends, one.front, parts));
        let said = &mut legs.all_mut()[one.front];
        said.sums = sums_of(parts);
        said.window = one.window;
        said.brakes = one.brakes;
        let life = stretches.iter().map(|stretch| stretch.end - stretch.begin).sum();
        said.ask = ask_of(parts, &said.sums, life);
        said.parts = (parts.len() <= MOST_PARTS).then(|| parts.to_vec());
    }

    fn hop(&self, number: usize, hop: Hop, legs: &Legs) -> HopSaid {
        let (mut requests, mut back_requests) = (0, 0);
        let (mut grades, mut time, mut told) = (Grades::default(), [0; Who::ALL.len()], Vec::new());
        for ((at, one), said) in self.facts.requests.iter().enumerate().zip(legs.all()) {
            let listener = self.facts.listener(one);
            if listener == hop.back {
                back_requests += 1;
                *self.grade(at, said, hop, &mut grades) += 1;
            }
            if listener == hop.front {
                requests += 1;
                if said.hop == Some(number) {
                    told.push(self.place(at));
                    said.sums.iter().for_each(|(whose, nanos)| time[whose.who() as usize] += nanos);
                }
            }
        }
        let name = |listener: usize| self.facts.listeners.get(listener).cloned().unwrap_or_default();
        let ask = hop_ask(told.into_iter(), legs, self.answer);
        HopSaid { front: name(hop.front), back: name(hop.back), requests, back_requests, grades, time, ask }
    }

    /// Where a back request counts.
    fn grade<'b>(&self, back: usize, said: &RequestLegs, hop: Hop, grades: &'b mut Grades) -> &'b mut u64 {
        match said.carries.filter(|leg| self.listener_of(leg) == Some(hop.front)).map(|leg| leg.grade) {
            Some(PairGrade::Sure) => &mut grades.sure,
            Some(PairGrade::Likely) => &mut grades.likely,
            Some(PairGrade::Ambiguous) => &mut grades.ambiguous,
            None if self.pairs.ambiguous.contains(&back) => &mut grades.ambiguous,
            None => &mut grades.none,
        }
    }
}

/// How long each took, in the order of their names; each instant is one's.
fn sums_of(parts: &[Part]) -> Vec<(Whose, Nanos)> {
    let (mut sums, mut are_there) = ([0; Whose::ALL.len()], 0_u32);
    for part in parts {
        sums[part.whose as usize] += part.end - part.begin;
        are_there |= 1 << part.whose as u32;
    }
    let mut told = Vec::with_capacity(are_there.count_ones() as usize);
    while are_there != 0 {
        let at = are_there.trailing_zeros() as usize;
        told.push((Whose::ALL[at], sums[at]));
        are_there &= are_there - 1;
    }
    told
}

/// A connection that began before the capture may have carried requests before what was seen of it.
fn begin_of(said: &ConnectionSaid) -> Nanos {
    said.joined.as_ref().map_or(said.begin, |_| Nanos::MIN)
}

/// When something may have carried a request that was not seen.
struct Unseen {
    is_all: bool,
    /// By their begins, each with the latest end until there.
    times: Vec<(Nanos, Nanos)>,
    latest: Vec<Nanos>,
}

impl Unseen {
    fn holds(&self, one: &facts::Request) -> bool {
        let before = self.times.partition_point(|time| time.0 <= one.until);
        self.is_all || before.checked_sub(1).map_or(false, |at| self.latest[at] >= one.opened)
    }
}
