//! How quickly each side reacts to what the other one sends (docs/WHY.md, 5): by PING, SETTINGS, first answers, and
//! what credit forces: a grant says that content has come, and what goes past a limit says that a grant has.

use std::collections::{HashMap, VecDeque};

use crate::answer::Nanos;
use crate::cutter::{flag, kind, Cut};
use crate::settings::Values;
use crate::windows::FIRST_CREDIT;

/// So many PINGs without an answer are remembered.
const MOST_PINGS: usize = 1 << 16;
/// SETTINGS without an acknowledgement that are looked at; a peer that answers none is told by the first ones.
pub const MOST_UNANSWERED: usize = 8;
/// So many SETTINGS of a side that wait are kept; of more it is known how many.
const MOST_SETTINGS: usize = 4096;
/// So many streams are watched at once, and in all of a connection; so many frames of content and grants wait of each
/// window.
const MOST_WATCHED: usize = 8;
const MOST_STREAMS: u32 = 256;
const MOST_WAITING: usize = 8;
const PING: usize = 8;

/// A peer may take some milliseconds for a reaction; only from here on it tells of the way, and so none does of a side
/// with one that took less.
pub const LEAST_REACTION: Nanos = 10_000_000;

/// What a side reacted to.
#[derive(Clone, Copy, Debug, PartialEq, Eq)]
pub enum Reaction {
    Ping,
    Settings,
    /// A grant, which came after the content that it gives back.
    Grant,
    /// Content past what was allowed before a grant.
    Content,
    /// The first frame that answers a request.
    Answer,
}

/// The quickest reactions of a side, the least first, each with the time at which it began; where these are of one
/// kind, the quickest of another one; and how long the first took.
#[derive(Clone, Copy, Debug, Default, PartialEq, Eq)]
pub struct Quickest {
    pub least: [Option<(Nanos, Nanos, Reaction)>; 3],
    other: Option<(Nanos, Nanos, Reaction)>,
    pub first: Option<Nanos>,
}

impl Quickest {
    pub fn add(&mut self, kind: Reaction, began: Nanos, came: Nanos) {
        let took = came.saturating_sub(began);
        if took < 0 {
            return;
        }
        self.first.get_or_insert(took);
        let mut next = Some((took, began, kind));
        for place in &mut self.least {
            if place.map_or(true, |one| next.map_or(false, |next| next.0 < one.0)) {
                std::mem::swap(place, &mut next);
            }
        }
        if let (Some(next), Some(kind)) = (next, self.one_kind()) {
            self.left(next, kind);
        }
    }

    /// The kind of the three least, where all are of one.
    fn one_kind(&self) -> Option<Reaction> {
        let [one, two, three] = self.least.map(|one| one.map(|one| one.2));
        one.filter(|_| one == two && two == three)
    }

    /// Takes note that one is not among the least, which are all of a kind.
    fn left(&mut self, one: (Nanos, Nanos, Reaction), kind: Reaction) {
        self.other = self.other.filter(|other| other.2 != kind);
        if one.2 != kind && self.other.map_or(true, |other| one.0 < other.0) {
            self.other = Some(one);
        }
    }

    pub fn nanos(&self) -> Option<Nanos> {
        self.least[0].map(|least| least.0)
    }

    /// The three least of them, of two kinds where there are any, or PINGs alone.
    pub fn three(&self) -> Option<[(Nanos, Nanos, Reaction); 3]> {
        let [one, two, mut three] = match self.least {
            [Some(one), Some(two), Some(three)] => [one, two, three],
            _ => return None,
        };
        if self.one_kind().map_or(false, |kind| kind != Reaction::Ping) {
            three = self.other?;
        }
        Some([one, two, three])
    }

    /// Whether others can tell of the way no longer.
    fn is_settled(&self) -> bool {
        self.nanos().map_or(false, |least| least < LEAST_REACTION)
    }
}

/// SETTINGS: frame, time, and initial window.
type SentSettings = (u32, Nanos, Option<u32>);

/// When each PING of a side was sent.
type Pings = HashMap<(usize, [u8; PING]), Nanos>;

/// What is awaited of a connection's sides.
#[derive(Debug, Default)]
pub struct Reactions {
    pub quickest: [Quickest; 2],
    pub acknowledged: [u32; 2],
    /// SETTINGS that wait for an acknowledgement; nothing where none do.
    settings: [Option<VecDeque<SentSettings>>; 2],
    /// How many wait behind those.
    more_settings: [u32; 2],
    /// PINGs without an answer; nothing where there never was one.
    pings: Option<Box<Pings>>,
    /// The connection's windows by the side that sends, and streams that go on.
    windows: [WatchedWindow; 2],
    watched: Vec<Watched>,
    streams: u32,
    highest: u32,
    /// What the acknowledged SETTINGS changed the initial windows by.
    initials: [i64; 2],
    is_settled: bool,
}

#[derive(Debug)]
struct Watched {
    stream: u32,
    asked: Option<Nanos>,
    windows: [WatchedWindow; 2],
    has_ended: [bool; 2],
}

/// What one side sends within one window.
#[derive(Debug, Default)]
struct WatchedWindow {
    content: i64,
    granted: i64,
    /// What was granted before the first content, which gives nothing back.
    early: i64,
    /// Frames of content that were not given back: what was sent with them, and when they began.
    sent: Vec<(i64, Nanos)>,
    /// Grants that were not needed yet: what was allowed before each.
    allowed: Vec<(i64, Nanos)>,
    /// More was granted than was sent, so that grants give nothing back any longer.
    is_enlarged: bool,
}

impl WatchedWindow {
    /// Answers when the last grant was given without which this content could not be sent.
    fn content(&mut self, length: u32, began: Nanos) -> Option<Nanos> {
        if length == 0 {
            return None;
        }
        self.content += i64::from(length);
        if !self.is_enlarged && self.sent.len() < MOST_WAITING {
            self.sent.push((self.content, began));
        }
        last_of(&mut self.allowed, |allowed| allowed < self.content)
    }

    /// Answers when the last content began which must have come before it.
    fn grant(&mut self, amount: u32, initial: i64, time: Nanos) -> Option<Nanos> {
        if self.allowed.len() < MOST_WAITING {
            self.allowed.push((initial + self.granted, time));
        }
        self.granted += i64::from(amount);
        if self.content == 0 {
            self.early = self.granted;
            return None;
        }
        let given_back = self.granted - self.early;
        if given_back > self.content || self.is_enlarged {
            self.is_enlarged = true;
            self.sent.clear();
            return None;
        }
        last_of(&mut self.sent, |sent| sent <= given_back)
    }
}

/// Takes out of a list in order all up to the last one of which this holds, and answers when that was.
fn last_of(some: &mut Vec<(i64, Nanos)>, holds: impl Fn(i64) -> bool) -> Option<Nanos> {
    some.first().filter(|one| holds(one.0))?;
    let count = some.iter().take_while(|one| holds(one.0)).count();
    some.drain(..count).last().map(|one| one.1)
}

impl Reactions {
    pub fn unanswered(&self) -> Vec<u32> {
        let first = |side: usize| self.settings[side].iter().flatten().take(MOST_UNANSWERED).map(|one| one.0);
        let mut frames: Vec<u32> = first(0).chain(first(1)).collect();
        frames.sort_unstable();
        frames.truncate(MOST_UNANSWERED);
        frames
    }

    /// Takes a frame of a side. Where no more is looked for, SETTINGS alone count.
    #[inline]
    pub fn take(&mut self, side: usize, frame: u32, cut: &Cut<'_>) {
        if !self.is_settled || cut.head.kind == kind::SETTINGS {
            self.look(side, frame, cut);
        }
    }

    fn look(&mut self, side: usize, frame: u32, cut: &Cut<'_>) {
        let (began, time) = match (cut.times.first(), cut.times.last()) {
            (Some(first), Some(last)) => (*first, *last),
            _ => return,
        };
        let head = &cut.head;
        match head.kind {
            kind::SETTINGS if head.has(flag::ACK) => {
                if head.length == 0 {
                    self.acknowledge(side, began);
                }
            }
            kind::SETTINGS if head.length % 6 == 0 => {
                self.asked(side, (frame, time, Values::initial_window_of(cut.payload)));
            }
            kind::SETTINGS => {}
            _ if self.quickest.iter().all(Quickest::is_settled) => self.settle(),
            kind::PING => self.ping(side, cut, (began, time)),
            kind::DATA => self.content(side, cut, began),
            kind::HEADERS => self.headers(side, cut, (began, time)),
            kind::WINDOW_UPDATE => self.grant(side, cut, (began, time)),
            kind::RST_STREAM => self.watched.retain(|one| one.stream != head.stream),
            _ => {}
        }
    }

    /// Looks for no more.
    fn settle(&mut self) {
        self.is_settled = true;
        self.pings = None;
        self.windows = Default::default();
        self.watched = Vec::new();
    }

    fn asked(&mut self, side: usize, settings: SentSettings) {
        let waiting = self.settings[side].get_or_insert_with(|| VecDeque::with_capacity(1));
        if self.more_settings[side] == 0 && waiting.len() < MOST_SETTINGS {
            waiting.push_back(settings);
        } else {
            self.more_settings[side] += 1;
        }
    }

    /// A side acknowledges the oldest SETTINGS of the other one. If these were not kept, any initial window may be in
    /// force.
    fn acknowledge(&mut self, side: usize, began: Nanos) {
        let other = 1 - side;
        let waiting = &mut self.settings[other];
        if let Some((_, asked, initial)) = waiting.as_mut().and_then(VecDeque::pop_front) {
            *waiting = waiting.take().filter(|some| !some.is_empty());
            self.acknowledged[other] += 1;
            self.quickest[side].add(Reaction::Settings, asked, began);
            self.changed(side, initial);
        } else if self.more_settings[other] > 0 {
            self.more_settings[other] -= 1;
            self.acknowledged[other] += 1;
            self.changed(side, Some(u32::MAX));
        }
    }

    fn changed(&mut self, side: usize, initial: Option<u32>) {
        if let Some(initial) = initial {
            self.initials[side] = i64::from(initial) - FIRST_CREDIT;
            self.watched.iter_mut().for_each(|one| one.windows[side].allowed.clear());
        }
    }

    fn ping(&mut self, side: usize, cut: &Cut<'_>, (began, time): (Nanos, Nanos)) {
        let octets = match <[u8; PING]>::try_from(cut.payload) {
            Ok(octets) if cut.head.length as usize == PING => octets,
            _ => return,
        };
        if cut.head.has(flag::ACK) {
            if let Some(asked) = self.pings.as_mut().and_then(|pings| pings.remove(&(1 - side, octets))) {
                self.quickest[side].add(Reaction::Ping, asked, began);
            }
            return;
        }
        let pings = self.pings.get_or_insert_with(Box::default);
        if pings.len() < MOST_PINGS || pings.contains_key(&(side, octets)) {
            pings.insert((side, octets), time);
        }
    }

    fn content(&mut self, side: usize, cut: &Cut<'_>, began: Nanos) {
        let head = &cut.head;
        let mut granted = self.windows[side].content(head.length, began);
        if let Some(one) = self.watched.iter_mut().find(|one| one.stream == head.stream) {
            granted = granted.max(one.windows[side].content(head.length, began));
        }
        if let Some(granted) = granted {
            self.quickest[side].add(Reaction::Content, granted, began);
        }
        self.ended(side, cut);
    }

    fn headers(&mut self, side: usize, cut: &Cut<'_>, (began, time): (Nanos, Nanos)) {
        let stream = cut.head.stream;
        if side == import::CLIENT && stream % 2 == 1 && stream > self.highest {
            self.highest = stream;
            if self.streams == MOST_STREAMS {
                return;
            }
            self.streams += 1;
            if self.watched.len() == MOST_WATCHED {
                self.watched.remove(0);
            }
            self.watched.reserve_exact(1);
            self.watched.push(Watched {
                stream,
                asked: Some(time),
                windows: Default::default(),
                has_ended: [false; 2],
            });
        } else if side == import::SERVER {
            let one = self.watched.iter_mut().find(|one| one.stream == stream);
            if let Some(asked) = one.and_then(|one| one.asked.take()) {
                self.quickest[side].add(Reaction::Answer, asked, began);
            }
        }
        self.ended(side, cut);
    }

    /// Streams are let go of once both sides have ended them.
    fn ended(&mut self, side: usize, cut: &Cut<'_>) {
        if !cut.head.has(flag::END_STREAM) {
            return;
        }
        if let Some(at) = self.watched.iter().position(|one| one.stream == cut.head.stream) {
            self.watched[at].has_ended[side] = true;
            if self.watched[at].has_ended == [true; 2] {
                self.watched.remove(at);
            }
        }
        if self.watched.is_empty() {
            self.watched = Vec::new();
        }
    }

    fn grant(&mut self, side: usize, cut: &Cut<'_>, (began, time): (Nanos, Nanos)) {
        let amount = match cut.number() {
            Some(amount) if cut.head.length == 4 => amount & (u32::MAX >> 1),
            _ => return,
        };
        let sender = 1 - side;
        let initial = FIRST_CREDIT + self.initials[sender];
        let sent = match cut.head.stream {
            0 => self.windows[sender].grant(amount, FIRST_CREDIT, time),
            stream => {
                let one = self.watched.iter_mut().find(|one| one.stream == stream);
                one.and_then(|one| one.windows[sender].grant(amount, initial, time))
            }
        };
        if let Some(sent) = sent {
            self.quickest[side].add(Reaction::Grant, sent, began);
        }
    }
}

#[cfg(test)]
mod tests;
