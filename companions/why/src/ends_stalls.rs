//! What each stall waited for, by both ends of its connection: the way, the peer's answer, or bytes that were lost.

use std::collections::{HashMap, HashSet};

use explain::answer::{At, FaultSaid, Nanos, StallSaid};
use reports::Side;

use crate::ends::{Both, End, FramePlace};
use crate::wording::{count, time_of, SIDES};

/// A part counts as delayed where it took so much longer than the quickest way.
const LEAST_DELAY: Nanos = 1_000_000;

#[derive(Clone, Copy, Debug, PartialEq, Eq)]
pub enum Verdict {
    RoundTrip,
    GrantedLate,
    ContentDelayed,
    GrantDelayed,
    GrantedNothing,
    GrantLost,
    NotNeeded,
    Unseen,
}

impl Verdict {
    pub fn name(self) -> &'static str {
        match self {
            Verdict::RoundTrip => "round-trip",
            Verdict::GrantedLate => "granted-late",
            Verdict::ContentDelayed => "content-delayed",
            Verdict::GrantDelayed => "grant-delayed",
            Verdict::GrantedNothing => "granted-nothing",
            Verdict::GrantLost => "grant-lost",
            Verdict::NotNeeded => "not-needed",
            Verdict::Unseen => "unseen",
        }
    }

    fn blames(self) -> bool {
        matches!(self, Verdict::GrantedLate | Verdict::GrantedNothing | Verdict::RoundTrip)
    }
}

/// The parts of a stall: the bytes' way out, the other side's answer, the grant's way back.
#[derive(Clone, Copy, Debug, PartialEq, Eq)]
pub struct Parts {
    pub out: Nanos,
    pub answer: Nanos,
    pub back: Nanos,
}

/// A stall as its sender has it.
pub struct StallOfBoth<'a> {
    pub stall: &'a StallSaid,
    pub begin_there: Option<At>,
    pub end_there: Option<At>,
    pub shows_there: bool,
    pub content_on_way: u64,
    pub grants_on_way: u64,
    pub parts: Option<Parts>,
    pub verdict: Verdict,
    pub text: String,
}

impl StallOfBoth<'_> {
    pub fn ask(&self) -> Option<Side> {
        self.verdict.blames().then(|| self.stall.side.other())
    }

    /// What was on its way when the credit was used up.
    pub fn way_words(&self) -> String {
        let content = match self.content_on_way {
            0 => None,
            bytes => Some(format!("{} of content", count(bytes, "byte"))),
        };
        let grants = match self.grants_on_way {
            0 => None,
            bytes => Some(format!("grants of {}", count(bytes, "byte"))),
        };
        let said: Vec<String> = content.into_iter().chain(grants).collect();
        if said.is_empty() {
            "nothing".to_string()
        } else {
            said.join(" and ")
        }
    }
}

/// The captures that show a fault.
#[derive(Clone, Copy, Debug, PartialEq, Eq)]
pub enum ShownBy {
    One(Side),
    Both,
}

impl ShownBy {
    pub fn name(self) -> &'static str {
        match self {
            ShownBy::One(side) => side.name(),
            ShownBy::Both => "both",
        }
    }

    pub fn is_by(self, side: Side) -> bool {
        matches!(self, ShownBy::Both) || self == ShownBy::One(side)
    }
}

pub struct FaultOfBoth<'a> {
    pub fault: &'a FaultSaid,
    pub shown_by: ShownBy,
}

/// The stalls of each side by its own capture, where its credit is what it was.
pub fn stalls_of<'a>(both: &Both<'a>) -> Vec<StallOfBoth<'a>> {
    let mut found = Vec::new();
    for side in SIDES {
        let (here, there) = (both.end(side), both.end(side.other()));
        let of_side = |end: &End<'a>| end.said().stalls.iter().filter(move |one| one.side == side);
        let shown: HashSet<_> = of_side(there).map(|one| (one.stream, there.place(one.begin.frame))).collect();
        for stall in of_side(here) {
            let shows_there = shown.contains(&(stall.stream, here.place(stall.begin.frame)));
            found.push(Looking { here, there, round_trip: both.round_trip, stall }.found(shows_there));
        }
    }
    found
}

/// A stall that is looked at, in the capture of its sender, and in the other one.
struct Looking<'a, 'b> {
    here: &'b End<'a>,
    there: &'b End<'a>,
    round_trip: Nanos,
    stall: &'a StallSaid,
}

impl<'a> Looking<'a, '_> {
    fn found(&self, shows_there: bool) -> StallOfBoth<'a> {
        let stall = self.stall;
        let begin = self.here.place(stall.begin.frame);
        let end = stall.end.and_then(|at| self.here.place(at.frame));
        let began = begin.map_or(stall.begin.time, |place| self.here.time(place));
        let there = |place: Option<FramePlace>| place.and_then(|place| self.there.at(place));
        let (begin_there, end_there) = (there(begin), there(end));
        // One that the sender itself ended, as by the end of its stream, waits for no grant.
        let parts = match (begin, end) {
            (Some(begin), Some(end)) if begin_there.is_some() && end_there.is_some() && end.0 != stall.side => {
                Some(self.parts(begin, end))
            }
            _ => None,
        };
        let (verdict, text) = match parts {
            Some(parts) => self.judged(parts),
            None => self.judged_open(begin_there, end_there),
        };
        let (content_on_way, grants_on_way) = (self.content_on_way(began), self.grants_on_way(began));
        StallOfBoth { stall, begin_there, end_there, shows_there, content_on_way, grants_on_way, parts, verdict, text }
    }

    /// The three parts sum to the stall. A grant that was sent before the bytes arrived had no need of them.
    fn parts(&self, begin: FramePlace, end: FramePlace) -> Parts {
        let (began, ended) = (self.here.time(begin), self.here.time(end));
        let within = |time: Nanos| time.max(began).min(ended);
        let (arrived, granted) = (within(self.there.time(begin)), within(self.there.time(end)));
        Parts { out: arrived.min(granted) - began, answer: (granted - arrived).max(0), back: ended - granted }
    }

    /// Bytes of DATA that the side had sent by then, and that had not arrived.
    fn content_on_way(&self, time: Nanos) -> u64 {
        let side = self.stall.side;
        let (sent, arrived) = (self.here.frames_by(side, time), self.there.frames_by(side, time));
        self.here.content(side, sent).saturating_sub(self.there.content(side, arrived.min(sent)))
    }

    /// Bytes that the other side had granted in the stalled window by then, and whose grants had not arrived.
    fn grants_on_way(&self, time: Nanos) -> u64 {
        let (other, window) = (self.stall.side.other(), self.window());
        let (sent, arrived) = (self.there.frames_by(other, time), self.here.frames_by(other, time));
        if sent <= arrived {
            return 0;
        }
        let upto = |frames: usize| {
            let last = frames.checked_sub(1).and_then(|index| self.there.number((other, index)));
            self.there.granted(window, last.unwrap_or(0)).unwrap_or(0)
        };
        upto(sent).saturating_sub(upto(arrived))
    }

    fn window(&self) -> (Side, u32) {
        (self.stall.side, self.stall.stream)
    }

    fn judged(&self, parts: Parts) -> (Verdict, String) {
        let (sender, peer, way) = (self.stall.side, self.stall.side.other(), self.round_trip / 2);
        let Parts { out, answer, back } = parts;
        let mut longest = (Verdict::RoundTrip, out.min(way) + back.min(way));
        for (verdict, nanos) in [
            (Verdict::GrantedLate, answer),
            (Verdict::ContentDelayed, late(out - way)),
            (Verdict::GrantDelayed, late(back - way)),
        ] {
            if nanos > longest.1 {
                longest = (verdict, nanos);
            }
        }
        let (verdict, longer) = (longest.0, time_of(longest.1));
        let (out, answer, back) = (time_of(out), time_of(answer), time_of(back));
        let text = match verdict {
            Verdict::RoundTrip => {
                format!("the way took it, and the {peer} granted after {answer}: a larger window would do")
            }
            Verdict::GrantedLate => format!("the {peer} had the bytes, and granted {answer} later"),
            Verdict::ContentDelayed => {
                format!("the {sender}'s bytes took {out}, {longer} longer than the quickest")
            }
            _ => format!("the {peer}'s grant took {back}, {longer} longer than the quickest"),
        };
        (verdict, text)
    }

    /// A stall without an end, or one that needed no grant, or whose frames the other capture has not.
    fn judged_open(&self, begin_there: Option<At>, end_there: Option<At>) -> (Verdict, String) {
        let (sender, peer) = (self.stall.side, self.stall.side.other());
        let (begin, is_open) = match begin_there {
            Some(begin) if self.stall.end.is_none() || end_there.is_some() => (begin, self.stall.end.is_none()),
            begin => {
                let what = if begin.is_some() { "ended" } else { "began" };
                return (Verdict::Unseen, format!("the {peer}'s capture lacks the frame at which it {what}"));
            }
        };
        if !is_open {
            return (Verdict::NotNeeded, format!("the {sender} ended it itself"));
        }
        match self.granted_behind(begin) {
            0 => (Verdict::GrantedNothing, format!("the {peer} had the bytes, and granted nothing")),
            sent => {
                let why = format!("the {peer} granted {} past it", count(sent, "byte"));
                (Verdict::GrantLost, format!("{why}, and no such grant is in the {sender}'s capture"))
            }
        }
    }

    fn granted_behind(&self, begin: At) -> u64 {
        let upto = |frame: u32| self.there.granted(self.window(), frame).unwrap_or(0);
        upto(self.there.frames()).saturating_sub(upto(begin.frame))
    }
}

fn late(nanos: Nanos) -> Nanos {
    if nanos >= LEAST_DELAY {
        nanos
    } else {
        0
    }
}

/// What makes a fault the same at both ends: its frame by its place, where it has one.
type FaultKey<'a> = (Side, &'a str, u64, Result<FramePlace, u64>);

/// Each fault with the captures that show it: one end's order of frames may have what the other's has not.
pub fn faults_of<'a>(both: &Both<'a>) -> Vec<FaultOfBoth<'a>> {
    let [ours, theirs] = SIDES.map(|side| faults_by_key(both.end(side)));
    let keys: HashSet<FaultKey<'_>> = theirs.iter().map(|(key, _)| *key).collect();
    let known: HashSet<FaultKey<'_>> = ours.iter().map(|(key, _)| *key).collect();
    let of_client = ours.iter().map(|(key, fault)| FaultOfBoth {
        fault: *fault,
        shown_by: if keys.contains(key) { ShownBy::Both } else { ShownBy::One(Side::Client) },
    });
    let rest = theirs.iter().filter(|(key, _)| !known.contains(key));
    let of_server = rest.map(|(_, fault)| FaultOfBoth { fault: *fault, shown_by: ShownBy::One(Side::Server) });
    of_client.chain(of_server).collect()
}

/// The faults of an end, of which each is told once.
fn faults_by_key<'a>(end: &End<'a>) -> Vec<(FaultKey<'a>, &'a FaultSaid)> {
    let (mut found, mut places) = (Vec::<(FaultKey<'_>, &FaultSaid)>::new(), HashMap::new());
    for fault in &end.said().faults {
        let finding = &fault.finding;
        let place = u32::try_from(finding.frame).ok().and_then(|frame| end.place(frame)).ok_or(finding.frame);
        let key = (finding.side, finding.kind.name(), finding.stream, place);
        let at = *places.entry(key).or_insert(found.len());
        match found.get_mut(at) {
            Some(known) => known.1 = fault,
            None => found.push((key, fault)),
        }
    }
    found
}
