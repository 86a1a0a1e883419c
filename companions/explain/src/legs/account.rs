//! Whose each instant of a front request's life is, by the one rule of what the proxy held then (docs/WHY.md, 14).

use crate::answer::{Cause, CauseWhy, Nanos, Share, Span};
use crate::legs::brakes::{Braking, Now};
use crate::legs::course::{ByteCourse, Cursor};
use crate::legs::said::{Brake, Whose};
use crate::side_of;

/// What a leg tells by itself.
pub struct Lived<'a> {
    pub opened: Nanos,
    pub until: Nanos,
    /// The client's and the server's.
    pub sides: [Sent<'a>; 2],
    /// What held it back, where that is TCP or a window that does not show; else it may be none.
    pub cause: Cause,
}

/// What one side sent, and what each instant of that was, where that is not too much.
pub struct Sent<'a> {
    pub nanos: Nanos,
    pub spans: Option<&'a [Span]>,
    pub has_content: bool,
}

/// What is known of a leg before that: when it was opened, when both sides ended, and whether they sent content.
pub struct LegKnown {
    pub opened: Nanos,
    pub ends: [Nanos; 2],
    pub has_content: [bool; 2],
}

impl Lived<'_> {
    fn end_of(&self, side: usize) -> Nanos {
        self.opened + self.sides[side].nanos
    }
}

/// One leg of a request.
#[derive(Clone, Copy)]
pub struct Leg<'a> {
    pub said: &'a Lived<'a>,
    pub courses: &'a [ByteCourse; 2],
    pub round_trip: Nanos,
}

/// A front request, when it was tried before, and the back request that was answered, or was the last.
pub struct Legs<'a> {
    pub front: Leg<'a>,
    pub tries: &'a [(Nanos, Nanos)],
    pub back: Option<Leg<'a>>,
}

/// A stretch of a front request's life; and of which direction it is told, and whether the connection's window stalled.
#[derive(Clone, Copy, Debug, PartialEq, Eq)]
pub struct Stretch {
    pub begin: Nanos,
    pub end: Nanos,
    pub whose: Whose,
    pub is_request: bool,
    pub is_of_connection: bool,
}

impl Stretch {
    /// Whether nothing but its times differs from the one before.
    fn goes_on(&self, before: &Stretch) -> bool {
        Stretch { begin: before.begin, end: before.end, ..*self } == *before
    }
}

/// What a direction was doing, which moves on with the times that are asked for.
struct Doing<'a> {
    spans: Option<&'a [Span]>,
    at: usize,
    until: Nanos,
}

impl<'a> Doing<'a> {
    fn new(leg: Leg<'a>, side: usize) -> Doing<'a> {
        Doing { spans: leg.said.sides[side].spans, at: 0, until: leg.said.end_of(side) }
    }

    /// None past its end.
    fn at(&mut self, time: Nanos) -> Option<Share> {
        let spans = match self.spans {
            _ if time >= self.until => return None,
            None => return Some(Share::Unseen),
            Some(spans) => spans,
        };
        while spans.get(self.at).map_or(false, |span| span.end <= time) {
            self.at += 1;
        }
        spans.get(self.at).map(|span| span.share)
    }
}

/// What one leg has and does, by the sides that send.
struct Moving<'a> {
    units: [Cursor<'a>; 2],
    doing: [Doing<'a>; 2],
    /// Whether a window that is too small for the way does not show; and whether TCP's window was used up.
    is_unshown: [bool; 2],
    is_unread: [bool; 2],
}

impl<'a> Moving<'a> {
    fn new(leg: Leg<'a>) -> Moving<'a> {
        let cause = &leg.said.cause;
        Moving {
            units: [0, 1].map(|side| Cursor::new(&leg.courses[side])),
            doing: [0, 1].map(|side| Doing::new(leg, side)),
            is_unshown: [0, 1].map(|side| cause.why == CauseWhy::Unshown && cause.side == side_of(side)),
            is_unread: [0, 1].map(|side| cause.why == CauseWhy::ZeroWindow && cause.side == side_of(side)),
        }
    }
}

const FRONT: usize = 0;
const BACK: usize = 1;

pub fn is_stall(share: Option<Share>) -> bool {
    matches!(share, Some(Share::StreamStall | Share::ConnectionStall))
}

fn is_on_its_way(share: Option<Share>) -> bool {
    matches!(share, Some(Share::Sending | Share::Others | Share::Tcp))
}

/// What is known of an instant.
#[derive(Clone, Copy)]
struct Instant {
    time: Nanos,
    /// Units that came and were sent, by the sides that send them; and what both legs do.
    came: [u64; 2],
    sent: [u64; 2],
    /// What came of whole frames: the rest of the others is on its way.
    whole: [u64; 2],
    front: [Option<Share>; 2],
    back: [Option<Share>; 2],
}

/// All that does not change with time.
struct Fixed<'a> {
    legs: &'a Legs<'a>,
    /// When tries began, and the latest end of those until then.
    tried: Vec<(Nanos, Nanos)>,
    /// When the client's request ended, and how much it was.
    asked: Nanos,
    whole: u64,
    opened: Nanos,
    closed: Nanos,
    /// Up to here the way to the upstream and back takes the time.
    back_to: Nanos,
    unshown: [[bool; 2]; 2],
    unread: [[bool; 2]; 2],
    /// Whether the proxy took in all of the request before it opened one of its own.
    waits_for_all: bool,
}

/// Divides a life, whose stretches go behind those of others, and tells what held back what the proxy was to send on.
pub fn account(legs: &Legs<'_>, stretches: &mut Vec<Stretch>) -> Vec<Brake> {
    let said = legs.front.said;
    let mut front = Moving::new(legs.front);
    let mut back = legs.back.map(Moving::new);
    let fixed = Fixed::new(legs, &front, back.as_ref());
    let (first, mut braking): (usize, [Braking; 2]) = (stretches.len(), Default::default());
    let times = fixed.times();
    for two in times.windows(2) {
        let (time, end) = (two[0], two[1]);
        let front_has = [0, 1].map(|side| front.units[side].at(time));
        let back_has = [0, 1].map(|side| back.as_mut().map_or(0, |back| back.units[side].at(time)));
        let now = Instant {
            time,
            came: [front_has[0], back_has[1]],
            sent: [back_has[0], front_has[1]],
            whole: [front.units[0].whole_at(time), back.as_mut().map_or(0, |back| back.units[1].whole_at(time))],
            front: [0, 1].map(|side| front.doing[side].at(time)),
            back: [0, 1].map(|side| back.as_mut().and_then(|back| back.doing[side].at(time))),
        };
        let (whose, is_request) = fixed.whose(&now);
        let stalled = if is_request { now.front[0] } else { now.back[1] };
        let is_of_connection = whose == Whose::ProxyStall && stalled == Some(Share::ConnectionStall);
        let stretch = Stretch { begin: time, end, whose, is_request, is_of_connection };
        match stretches[first..].last_mut() {
            Some(last) if stretch.goes_on(last) => last.end = end,
            _ => stretches.push(stretch),
        }
        if back.is_some() && time >= fixed.opened {
            braking[0].take(&Now { begin: time, end, held: now.held(0), sends: now.back[0], other: now.front[0] });
            braking[1].take(&Now { begin: time, end, held: now.held(1), sends: now.front[1], other: now.back[1] });
        }
    }
    let [request, answer] = braking.map(|one| one.end());
    let of = |brakes: Vec<Brake>, is_by_client| brakes.into_iter().map(move |one| Brake { is_by_client, ..one });
    let mut brakes: Vec<Brake> = of(answer, true).chain(of(request, false)).collect();
    brakes.sort_by_key(|one| one.begin);
    let nanos = (said.until - said.opened).max(0);
    debug_assert_eq!(stretches[first..].iter().map(|one| one.end - one.begin).sum::<Nanos>(), nanos);
    brakes
}

impl Instant {
    fn held(&self, side: usize) -> u64 {
        self.came[side].saturating_sub(self.sent[side])
    }

    fn is_held(&self, side: usize) -> bool {
        self.whole[side] > self.sent[side]
    }
}

impl<'a> Fixed<'a> {
    fn new(legs: &'a Legs<'a>, front: &Moving<'_>, back: Option<&Moving<'_>>) -> Fixed<'a> {
        let said = legs.front.said;
        let asked = said.end_of(0);
        let opened = legs.back.map_or(Nanos::MAX, |back| back.said.opened);
        let first = legs.tries.iter().map(|one| one.0).chain([opened]).min().unwrap_or(opened);
        let mut tried = legs.tries.to_vec();
        tried.sort_unstable();
        let latest = |latest: &mut Nanos, one: (Nanos, Nanos)| {
            *latest = one.1.max(*latest);
            Some((one.0, *latest))
        };
        Fixed {
            legs,
            tried: tried.into_iter().scan(Nanos::MIN, latest).collect(),
            asked,
            whole: legs.front.courses[0].total(),
            opened,
            closed: legs.back.map_or(Nanos::MAX, |back| back.said.until),
            back_to: legs.back.map_or(0, |back| back.said.end_of(0).saturating_add(back.round_trip)),
            unshown: [front.is_unshown, back.map_or([false; 2], |back| back.is_unshown)],
            unread: [front.is_unread, back.map_or([false; 2], |back| back.is_unread)],
            waits_for_all: said.sides[0].has_content && first >= asked,
        }
    }

    /// All times at which something changes, from the opening to the end.
    fn times(&self) -> Vec<Nanos> {
        let said = self.legs.front.said;
        let (begin, end) = (said.opened, said.until.max(said.opened));
        let legs = || std::iter::once(&self.legs.front).chain(&self.legs.back);
        let number = |leg: &Leg<'_>| {
            let spans = leg.said.sides.iter().flat_map(|side| side.spans).map(<[Span]>::len);
            spans.chain(leg.courses.iter().map(ByteCourse::len)).sum::<usize>() + 2
        };
        let mut times = Vec::with_capacity(6 + 2 * self.legs.tries.len() + legs().map(number).sum::<usize>());
        let mut add = |time: Nanos| {
            if begin < time && time < end {
                times.push(time);
            }
        };
        [self.asked, self.opened, self.closed, self.back_to].into_iter().for_each(&mut add);
        self.legs.tries.iter().flat_map(|one| [one.0, one.1]).for_each(&mut add);
        for leg in legs() {
            leg.courses.iter().flat_map(|course| course.steps()).for_each(|step| add(step.0));
            for side in 0..2 {
                leg.said.sides[side].spans.iter().copied().flatten().for_each(|span| add(span.begin));
                add(leg.said.end_of(side));
            }
        }
        times.extend([begin, end]);
        times.sort_unstable();
        times.dedup();
        times
    }

    /// Whose an instant is, and whether it is told of the request's direction.
    fn whose(&self, now: &Instant) -> (Whose, bool) {
        if now.time < self.opened {
            return match now.sent[1] > 0 && self.legs.back.is_none() {
                true => (self.of_own_answer(now), false),
                false => (self.before(now), true),
            };
        }
        let has_begun = now.came[1] > 0 || now.sent[1] > 0 || now.time >= self.closed;
        let is_handed_on = now.sent[0] >= self.whole && now.time >= self.asked;
        let is_request = !has_begun && !is_handed_on || now.front[1].is_none();
        let whose = if is_request { self.of_request(now) } else { self.of_answer(now) };
        (whose, is_request)
    }

    /// Whether the receiver of a leg does not read: by a window of HTTP/2 or TCP.
    fn is_unread(&self, leg: usize, side: usize, share: Option<Share>) -> bool {
        is_stall(share) || share == Some(Share::Tcp) && self.unread[leg][side]
    }

    /// What the proxy answers without the upstream.
    fn of_own_answer(&self, now: &Instant) -> Whose {
        match now.front[1] {
            Some(Share::Unseen) => Whose::Unseen,
            share if self.is_unread(FRONT, 1, share) => Whose::Client,
            share if is_on_its_way(share) => Whose::Front,
            _ => Whose::ProxyHeld,
        }
    }

    fn before(&self, now: &Instant) -> Whose {
        let tried = self.tried.partition_point(|one| one.0 <= now.time);
        if tried.checked_sub(1).map_or(false, |at| self.tried[at].1 > now.time) {
            return Whose::FailedTry;
        }
        let is_asked = now.time >= self.asked;
        match now.front[0] {
            Some(Share::Unseen) if !is_asked => Whose::Unseen,
            share if is_asked || !self.waits_for_all && self.legs.back.is_some() || is_stall(share) => {
                Whose::ProxyBefore
            }
            share if is_on_its_way(share) => Whose::Front,
            _ => Whose::Client,
        }
    }

    fn of_answer(&self, now: &Instant) -> Whose {
        let (front, back) = (now.front[1], now.back[1]);
        let is_held = now.is_held(1);
        match () {
            () if is_held && front == Some(Share::Unseen) => Whose::Unseen,
            () if is_held && self.is_unread(FRONT, 1, front) => Whose::Client,
            () if is_held && is_on_its_way(front) => Whose::Front,
            () if is_held => Whose::ProxyHeld,
            () if back.is_none() => Whose::ProxyAfter,
            () if back == Some(Share::Unseen) => Whose::Unseen,
            () if self.is_unread(BACK, 1, back) => Whose::ProxyStall,
            () if self.unshown[1][1] && back != Some(Share::Waiting) => Whose::ProxyRoundTrip,
            () if is_on_its_way(back) => Whose::Back,
            () if back == Some(Share::Waiting) && now.time < self.back_to => Whose::Back,
            () => Whose::Upstream,
        }
    }

    /// Says whose an instant of the request is: as for the answer, with client and upstream, front and back exchanged.
    fn of_request(&self, now: &Instant) -> Whose {
        let (front, back) = (now.front[0], now.back[0]);
        let is_held = now.is_held(0);
        match () {
            () if is_held && back == Some(Share::Unseen) => Whose::Unseen,
            () if is_held && self.is_unread(BACK, 0, back) => Whose::Upstream,
            () if is_held && is_on_its_way(back) => Whose::Back,
            () if is_held => Whose::ProxyHeld,
            () if front.is_none() => Whose::ProxyAfter,
            () if front == Some(Share::Unseen) => Whose::Unseen,
            () if self.is_unread(FRONT, 0, front) => Whose::ProxyStall,
            () if self.unshown[0][0] => Whose::ProxyRoundTrip,
            () if is_on_its_way(front) => Whose::Front,
            () => Whose::Client,
        }
    }
}
