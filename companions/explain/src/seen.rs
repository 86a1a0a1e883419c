//! What is known of a connection before its streams are told: by the import, the first walk and the report; and what
//! the second walk adds to it.

use std::collections::HashMap;
use std::rc::Rc;

use joined::Inferred;

use crate::answer::{is_pushed, At, Ended, How, Nanos, Place, RoundTrip, StallSaid, StallWhy};
use crate::beginning::key_of_stream;
use crate::course::SideCourse;
use crate::intervals::{disjoint, Interval, Stretches};
use crate::life::Holding;
use crate::rounds::NEAR;
use crate::settings::Changes;
use crate::side_of;
use crate::stream::{Direction, Stream};
use crate::tcp::Tcp;

/// By a side and a stream, of which 0 is the connection.
pub type Key = (usize, u32);

/// What is known of some windows, in their order; mostly there are none.
#[derive(Debug)]
pub struct OfWindows<T>(Box<[(Key, T)]>);

impl<T> OfWindows<T> {
    #[inline]
    pub fn get(&self, side: usize, stream: u32) -> Option<&T> {
        let at = self.0.binary_search_by_key(&(side, stream), |one| one.0).ok()?;
        self.0.get(at).map(|one| &one.1)
    }
}

impl<T> FromIterator<(Key, T)> for OfWindows<T> {
    fn from_iter<All: IntoIterator<Item = (Key, T)>>(all: All) -> OfWindows<T> {
        let mut found: Vec<(Key, T)> = all.into_iter().collect();
        found.sort_unstable_by_key(|one| one.0);
        OfWindows(found.into())
    }
}

/// What is known before the second walk.
#[derive(Debug)]
pub struct About {
    pub opened: At,
    pub tcp: Tcp,
    pub round_trip: RoundTrip,
    pub captured_at: Option<Place>,
    /// The time from which something of it was not seen, or not judged; and from which bytes are missing.
    pub unseen: Nanos,
    pub lost: Nanos,
    pub courses: [SideCourse; 2],
    /// A side that sends nothing for longer than this rests: an eighth of a round trip.
    pub rest: Nanos,
    /// How many stalls each stream's window has, and when they were.
    pub stalls: OfWindows<(u32, Vec<Interval>)>,
    /// What is inferred of one that began before the capture.
    pub inferred: Option<Rc<Inferred>>,
}

impl About {
    /// Whether the ends are so far from each other that what a side has sent may stand before what it sends next.
    pub fn is_far(&self) -> bool {
        self.round_trip.nanos().map_or(false, |nanos| nanos >= NEAR)
    }

    /// Whether a stream was opened before the capture.
    pub fn was_open(&self, stream: u32) -> bool {
        self.inferred.as_ref().map_or(false, |inferred| inferred.open.binary_search(&stream).is_ok())
    }

    /// What holds back a direction.
    #[inline]
    pub fn holding(&self, side: usize, stream: u32) -> Holding<'_> {
        let stalls = self.stalls.get(side, stream).map_or(&[][..], |one| &one.1);
        Holding { stalls, course: &self.courses[side], asked: self.opened.time, turn: Nanos::MAX }
    }

    /// The stalls of each window, as far as they were seen.
    pub fn stalls_of(audit: &[crate::audit::Stalled], unseen: Nanos) -> OfWindows<(u32, Vec<Interval>)> {
        let mut found: HashMap<Key, (u32, Vec<Interval>)> = HashMap::new();
        for one in audit {
            let window = found.entry((one.side, one.stream)).or_default();
            window.0 += 1;
            window.1.push((one.begin.time, one.end.map_or(Nanos::MAX, |end| end.time).min(unseen)));
        }
        found.into_iter().map(|(key, (count, stalls))| (key, (count, disjoint(stalls)))).collect()
    }
}

/// A GOAWAY that refuses streams above its last one.
#[derive(Clone, Copy, Debug)]
pub struct Refusal {
    pub side: usize,
    pub at: At,
    pub last: u32,
    pub code: u32,
}

/// Stalls of a window in the order of their begins, with their reasons.
#[derive(Debug)]
pub struct WindowStalls {
    pub stalls: Vec<StallSaid>,
    pub times: Stretches<u8>,
}

/// All that requests are told from.
#[derive(Debug)]
pub struct Seen {
    pub about: Box<About>,
    pub windows: OfWindows<WindowStalls>,
    /// The GOAWAY of each side that has the lowest last stream; and the first GOAWAY with an error.
    pub refusing: [Option<Refusal>; 2],
    pub error: Option<Ended>,
    /// The most credit of the connection's windows; and what was granted of them before the first content, or is not
    /// used.
    pub connection_windows: [i64; 2],
    pub granted_windows: [i64; 2],
    /// Pauses that began with the connection's credit used up, where stalls may not show.
    pub unshown: [Option<Box<Stretches<()>>>; 2],
    /// By the side that sends: when its initial window changed.
    pub changes: [Changes; 2],
    /// When something may have waited for a window, of which that is not known.
    pub doubtful: OfWindows<Interval>,
}

/// Reasons in the order of their names, of which the first counts where several took as long.
const REASONS: [StallWhy; 6] = [
    StallWhy::CancelledStreams,
    StallWhy::GrantLost,
    StallWhy::GrantedLate,
    StallWhy::GrantedNothing,
    StallWhy::NotNeeded,
    StallWhy::RoundTrip,
];

impl WindowStalls {
    /// Sorts the stalls of a connection by their windows.
    pub fn by_window(stalls: &[StallSaid]) -> OfWindows<WindowStalls> {
        let mut found: HashMap<Key, Vec<StallSaid>> = HashMap::new();
        for one in stalls {
            found.entry((one.side as usize, one.stream)).or_default().push(*one);
        }
        let of = |(key, mut stalls): (Key, Vec<StallSaid>)| {
            stalls.sort_by_key(|one| one.begin.time);
            let times = stalls.iter().map(|one| (one.begin.time, one.until, rank(one.why))).collect();
            (key, WindowStalls { stalls, times: Stretches::new(times) })
        };
        found.into_iter().map(of).collect()
    }

    /// The reason that took most of a stretch of time, and the first and the last stall of it.
    pub fn most(&self, (begin, end): Interval) -> Option<(StallWhy, &StallSaid, &StallSaid)> {
        let (first, last) = self.times.within(begin, end);
        let some = self.stalls.get(first..last)?;
        let why = self.times.reason(first, last).and_then(|rank| REASONS.get(usize::from(rank)))?;
        Some((*why, some.first()?, some.last()?))
    }
}

fn rank(why: StallWhy) -> u8 {
    REASONS.iter().position(|one| *one == why).unwrap_or(0) as u8
}

impl Seen {
    /// How a direction ended: by its END_STREAM, a reset of either side, or with the connection.
    pub fn end_of(&self, stream: &Stream, side: usize) -> Ended {
        end_of(stream, side, (&self.refusing, self.error), &self.about.tcp)
    }

    /// Whether the frame that ended a stream may not have been seen.
    pub fn is_end_unseen(&self, ended: &Ended, until: Nanos) -> bool {
        let is_shown = matches!(ended.how, How::EndStream | How::RstStream);
        !is_shown && self.about.lost <= until
    }

    /// Whether what a side sends on a stream may have waited for a window in a stretch of time without a known stall.
    pub fn may_wait(&self, side: usize, stream: u32, (begin, end): Interval) -> bool {
        let inferred = match &self.about.inferred {
            Some(inferred) => inferred,
            None => return false,
        };
        let keys = [(side, 0), key_of_stream(inferred, side, stream)];
        keys.iter().filter_map(|key| self.doubtful.get(key.0, key.1)).any(|one| one.0 < end && one.1 > begin)
    }

    /// Which SETTINGS made the initial window of a side what it was at a frame.
    pub fn setting(&self, side: usize, frame: u32) -> Option<u32> {
        let changed = self.changes[side].partition_point(|one| one.0 <= frame);
        changed.checked_sub(1).and_then(|at| self.changes[side].get(at)).and_then(|one| one.1)
    }
}

/// What ends streams of a connection: refusals of a side, and a GOAWAY with an error.
pub type Goaways<'a> = (&'a [Option<Refusal>; 2], Option<Ended>);

pub fn end_of(stream: &Stream, side: usize, goaways: Goaways<'_>, tcp: &Tcp) -> Ended {
    let one: &Direction = &stream.sides[side];
    match (one.end, stream.reset) {
        (Some(at), Some(reset)) if one.is_reset => {
            Ended { how: How::RstStream, side: Some(side_of(reset.side)), code: Some(reset.code), at: Some(at) }
        }
        (Some(at), _) => Ended { how: How::EndStream, side: Some(side_of(side)), code: None, at: Some(at) },
        (None, _) => with_connection(stream, one.last, goaways, tcp),
    }
}

fn with_connection(stream: &Stream, last: Option<At>, (refusing, error): Goaways<'_>, tcp: &Tcp) -> Ended {
    let closing = tcp.closing(last.map_or(stream.opened.time, |last| last.time));
    // A GOAWAY says that streams which the other side opened above its last one are not taken up.
    let refuser = usize::from(!is_pushed(stream.number));
    match refusing[refuser].filter(|one| one.last < stream.number) {
        Some(one) => {
            let (side, code) = (Some(side_of(one.side)), Some(one.code));
            Ended { how: How::GoAway, side, code, at: latest(Some(one.at), last) }
        }
        // Who sends one with an error closes the connection (RFC 9113, 5.4.1).
        None => match error.filter(|error| time_of(error) <= time_of(&closing)) {
            Some(error) => Ended { at: latest(error.at, last), ..error },
            None => Ended { at: latest(closing.at, last), ..closing },
        },
    }
}

fn time_of(ended: &Ended) -> Nanos {
    ended.at.map_or(Nanos::MAX, |at| at.time)
}

fn latest(one: Option<At>, other: Option<At>) -> Option<At> {
    match (one, other) {
        (Some(one), Some(other)) if other.time > one.time => Some(other),
        (None, other) => other,
        (one, _) => one,
    }
}
