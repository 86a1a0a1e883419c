//! What held back each request most: the window of its stream or of the connection, TCP, or an application
//! (docs/WHY.md, 4).

use import::Why;

use crate::answer::{self, At, Cause, CauseKind, CauseWhy, How, Nanos, Place, Request, Share, StallWhy, Sure};
use crate::seen::Seen;
use crate::side_of;
use crate::stream::{Direction, Stream};

/// Flow control or TCP held a request back where it did so for 1 ms and for 1 % of its life, at least.
pub const LEAST_HELD: Nanos = 1_000_000;
const HELD_SHARE: i128 = 100;
/// An application is named where it sent nothing for 10 ms and for a tenth of the request's life, at least; a path
/// where a side sent for 10 ms and more than half of it.
const LEAST_IDLE: Nanos = 10_000_000;
const IDLE_SHARE: i128 = 10;

/// A request whose cause is sought, the stream that it is told from, and how its directions ended.
pub struct Held<'a> {
    pub seen: &'a Seen,
    pub stream: &'a Stream,
    pub request: &'a Request,
    pub ends: [How; 2],
}

/// What held a request back most, how long a window did, and for how long it hung, if it did.
pub struct NamedCause {
    pub cause: Cause,
    pub held: Nanos,
    pub hung: Option<Nanos>,
}

fn is_held(nanos: Nanos, request: &Request) -> bool {
    nanos >= LEAST_HELD && i128::from(nanos) * HELD_SHARE >= i128::from(request.nanos())
}

fn is_window(cause: &Cause) -> bool {
    matches!(cause.kind, CauseKind::StreamWindow | CauseKind::ConnectionWindow)
}

/// Where nothing is named.
pub fn no_cause() -> Cause {
    Cause {
        kind: CauseKind::None,
        why: CauseWhy::None,
        side: side_of(0),
        ask: None,
        nanos: 0,
        first: None,
        last: None,
        window: 0,
        needed: None,
        credit: None,
        setting: None,
        is_proved: false,
        sure: None,
        is_silent: false,
        content: 0,
        streams: 0,
    }
}

/// A window for the rate that was seen between stalls; no more than all content needs.
fn needed_window(said: &answer::Direction, round_trip: Nanos) -> i64 {
    let (content, sending) = (i128::from(said.content), said.shares[Share::Sending as usize]);
    let needed = match sending {
        0 => content,
        _ => content.min(content * i128::from(round_trip) / i128::from(sending)),
    };
    i64::try_from(needed).unwrap_or(i64::MAX)
}

/// The one that took most; of several the first.
fn most_of<T>(all: impl IntoIterator<Item = T>, nanos: impl Fn(&T) -> Nanos) -> Option<T> {
    all.into_iter().reduce(|most, one| if nanos(&one) > nanos(&most) { one } else { most })
}

fn longest(causes: impl IntoIterator<Item = Cause>) -> Option<Cause> {
    most_of(causes, |cause| cause.nanos)
}

impl Held<'_> {
    /// Seeks the cause. A window that had no more grant is it, whatever took longer before.
    pub fn found(&self) -> NamedCause {
        let mut named = Vec::new();
        (0..2).for_each(|side| self.of_direction(side, &mut named));
        named.extend((0..2).filter_map(|side| self.unshown(side)));
        let held = named.iter().filter(|cause| is_window(cause)).map(|cause| cause.nanos).max().unwrap_or(0);
        let hung = most_of(named.iter().filter_map(|cause| self.hung(cause)), |hung| hung.0.nanos);
        match hung {
            Some((cause, nanos)) => NamedCause { cause, held, hung: Some(nanos) },
            None => NamedCause { cause: self.not_hung(named), held, hung: None },
        }
    }

    /// The one that took most, or where no window and no TCP did, the path or an application.
    fn not_hung(&self, mut named: Vec<Cause>) -> Cause {
        if self.request.nanos() >= LEAST_IDLE {
            let path = if named.is_empty() { self.path() } else { None };
            if let Some(path) = path {
                return path;
            }
            self.of_application(&mut named);
        }
        longest(named).unwrap_or_else(|| self.unseen())
    }

    /// Most of its life was not seen, or nothing held it back.
    fn unseen(&self) -> Cause {
        let nanos = self.request.sides.iter().map(|said| said.shares[Share::Unseen as usize]).max().unwrap_or(0);
        match i128::from(nanos) * 2 > i128::from(self.request.nanos().max(1)) {
            true => Cause { kind: CauseKind::Unseen, nanos, ..no_cause() },
            false => no_cause(),
        }
    }

    fn share(&self, side: usize, share: Share) -> Nanos {
        self.request.sides[side].shares[share as usize]
    }

    /// From the opening to the end of a direction.
    fn life(&self, side: usize) -> (Nanos, Nanos) {
        let begin = self.request.opened.time;
        (begin, begin.saturating_add(self.request.sides[side].nanos))
    }

    fn window_cause(&self, side: usize, kind: CauseKind, why: CauseWhy, nanos: Nanos) -> Cause {
        let window = match kind {
            CauseKind::StreamWindow => self.stream.sides[side].window.largest.unwrap_or(0),
            _ => self.seen.connection_windows[side],
        };
        Cause { kind, why, side: side_of(side), ask: Some(side_of(1 - side)), nanos, window, ..no_cause() }
    }

    fn of_direction(&self, side: usize, named: &mut Vec<Cause>) {
        let held = |share: Share| is_held(self.share(side, share), self.request);
        let windows =
            [(CauseKind::StreamWindow, Share::StreamStall), (CauseKind::ConnectionWindow, Share::ConnectionStall)];
        for (kind, share) in windows.into_iter().filter(|one| held(one.1)) {
            named.extend(self.of_window(side, kind, share));
        }
        if held(Share::Tcp) {
            named.push(self.of_tcp(side));
        }
    }

    /// The stalls of a window within a request's life, by the reason that took most of the time.
    fn of_window(&self, side: usize, kind: CauseKind, share: Share) -> Option<Cause> {
        let stream = if kind == CauseKind::StreamWindow { self.request.stream } else { 0 };
        let (why, first, last) = self.seen.windows.get(side, stream)?.most(self.life(side))?;
        if why == StallWhy::NotNeeded {
            return None;
        }
        let end = last.end.or_else(|| self.seen.about.tcp.closing(last.begin.time).at);
        let sure = first.sure;
        let cause = self.window_cause(side, kind, CauseWhy::Stalls(why), self.share(side, share));
        Some(Cause {
            first: Some(first.begin),
            last: end,
            needed: self.needed(&cause),
            setting: self.seen.setting(side, first.begin.frame),
            is_proved: matches!(sure, None | Some(Sure::Certain)),
            sure,
            ..cause
        })
    }

    /// The window that would do, where one is too small for a round trip.
    fn needed(&self, cause: &Cause) -> Option<i64> {
        let is_small = cause.why == CauseWhy::Stalls(StallWhy::RoundTrip) && self.seen.about.is_far();
        let round_trip = self.seen.about.round_trip.nanos().filter(|_| is_small)?;
        Some(needed_window(&self.request.sides[cause.side as usize], round_trip).max(cause.window))
    }

    /// What TCP held most: a receive window of zero is the receiver's, a loss is the network's.
    fn of_tcp(&self, side: usize) -> Cause {
        let (said, nanos) = (&self.request.sides[side], self.share(side, Share::Tcp));
        let cause = Cause { kind: CauseKind::Tcp, side: side_of(side), nanos, ..no_cause() };
        // What a side waits for may be bytes that asked for it, and were sent again.
        let by = |whose: usize| self.seen.about.tcp.held_by(whose, self.life(side), nanos).map(|by| (whose, by));
        let by_asked = || by(1 - side).filter(|(_, by)| by.why == Why::Resent);
        match by(side).or_else(by_asked) {
            None => Cause { why: CauseWhy::WithinFrame, first: said.first, last: said.end, ..cause },
            Some((whose, by)) => {
                let (why, ask) = match by.why {
                    Why::ZeroWindow => (CauseWhy::ZeroWindow, Some(side_of(1 - side))),
                    Why::Resent => (CauseWhy::Resent, None),
                    Why::Hole => (CauseWhy::Hole, None),
                    Why::Nagle => (CauseWhy::Nagle, Some(side_of(side))),
                };
                Cause { why, ask, side: side_of(whose), first: Some(by.first), last: Some(by.last), ..cause }
            }
        }
    }

    /// A window that is used up within a round trip: captured where the bytes arrive, no stall of it shows.
    fn unshown(&self, side: usize) -> Option<Cause> {
        let said = &self.request.sides[side];
        let receiver = [Place::AtServer, Place::AtClient][side];
        if self.seen.about.captured_at != Some(receiver) || said.end.is_none() || said.content == 0 {
            return None;
        }
        if is_held(said.stalled(), self.request) {
            return None;
        }
        let (begin, end) = self.life(side);
        let of_connection = self.seen.unshown[side].as_ref().map_or(0, |times| {
            let (first, last) = times.within(begin, end);
            times.sum(first, last)
        });
        let one = &self.stream.sides[side];
        let left = if one.window.is_live { 0 } else { one.window.credit };
        let of_stream = one.window.first.unwrap_or(0).max(left);
        let found = [
            (CauseKind::StreamWindow, one.unshown_nanos, of_stream),
            (CauseKind::ConnectionWindow, of_connection, self.seen.granted_windows[side]),
        ];
        let is_so = |one: &(CauseKind, Nanos, i64)| is_held(one.1, self.request) && self.is_used(side, one.2);
        longest(found.into_iter().filter(is_so).map(|(kind, nanos, window)| Cause {
            first: said.first,
            last: said.end,
            window,
            ..self.window_cause(side, kind, CauseWhy::Unshown, nanos.min(said.nanos))
        }))
    }

    /// Whether a window can be what holds back: it carries less in a round trip than twice the rate that was seen
    /// between pauses, of all streams.
    fn is_used(&self, side: usize, window: i64) -> bool {
        let beside = &self.stream.sides[side].beside;
        let round_trip = self.seen.about.round_trip.nanos().unwrap_or(0);
        i128::from(window) * i128::from(beside.active) < 2 * i128::from(beside.content) * i128::from(round_trip)
    }

    /// A side sent all the time, this stream or others, so that what all of them need took the time.
    fn path(&self) -> Option<Cause> {
        let of_side = |side: usize| {
            let (said, beside) = (&self.request.sides[side], &self.stream.sides[side].beside);
            let nanos = self.share(side, Share::Sending) + self.share(side, Share::Others);
            let is_most = nanos >= LEAST_IDLE && i128::from(nanos) * 2 > i128::from(self.request.nanos());
            is_most.then(|| Cause {
                kind: CauseKind::Path,
                side: side_of(side),
                nanos,
                first: said.first,
                last: said.end,
                content: beside.content,
                streams: beside.streams,
                ..no_cause()
            })
        };
        longest((0..2).filter_map(of_side))
    }

    /// Names a side that sent nothing though it had credit, between two frames or before its first. If the request
    /// never ended, it is a side that did not end it, the client first, which opened it.
    fn of_application(&self, named: &mut Vec<Cause>) {
        let before = named.len();
        for side in (0..2).filter(|side| self.ends[*side] != How::EndStream) {
            self.of_idle(side, named);
            if named.len() > before {
                return;
            }
        }
        (0..2).for_each(|side| self.of_idle(side, named));
    }

    fn of_idle(&self, side: usize, named: &mut Vec<Cause>) {
        named.extend(self.waited(side));
        named.extend(self.between(side));
    }

    /// Whether a side is named that sent nothing for so long.
    fn is_idle(&self, nanos: Nanos) -> bool {
        nanos >= LEAST_IDLE && i128::from(nanos) * IDLE_SHARE >= i128::from(self.request.nanos())
    }

    /// Whether it may have waited for a window between two moments.
    fn may_wait(&self, side: usize, first: Option<At>, last: Option<At>) -> bool {
        let [first, last] = [first, last].map(|at| at.map_or(0, |at| at.time));
        self.seen.may_wait(side, self.request.stream, (first, last))
    }

    fn application(&self, side: usize, why: CauseWhy, nanos: Nanos) -> Cause {
        Cause { kind: CauseKind::Application, why, side: side_of(side), ask: Some(side_of(side)), nanos, ..no_cause() }
    }

    /// Credit that is told: none that rests on what is inferred.
    fn credit(&self, credit: Option<i64>) -> Option<i64> {
        credit.filter(|_| self.seen.about.inferred.is_none())
    }

    /// How long a side took to begin after the other one's last frame before that.
    fn waited(&self, side: usize) -> Option<Cause> {
        let (said, one): (_, &Direction) = (&self.request.sides[side], &self.stream.sides[side]);
        let (first, last) = (Some(one.asked), said.first.or(said.end));
        if !self.is_idle(said.waited) || self.may_wait(side, first, last) {
            return None;
        }
        Some(Cause {
            first,
            last,
            credit: self.credit(one.asked_credit),
            is_silent: one.was_silent,
            ..self.application(side, CauseWhy::Before, said.waited)
        })
    }

    /// The longest stretch in which a side sent nothing on the stream, and the frames around it.
    fn between(&self, side: usize) -> Option<Cause> {
        let (said, one): (_, &Direction) = (&self.request.sides[side], &self.stream.sides[side]);
        let (begin, end) = one.life.longest_idle;
        let idle = one.idle.as_deref().copied().unwrap_or_default();
        let (first, last) = (idle.before.or(said.first), idle.after.or(said.end));
        if !self.is_idle(end - begin) || self.may_wait(side, first, last) {
            return None;
        }
        Some(Cause {
            first,
            last,
            credit: self.credit(idle.credit),
            is_silent: one.life.is_silent,
            ..self.application(side, CauseWhy::Between, end - begin)
        })
    }
}

#[cfg(test)]
mod tests {
    use super::*;
    use crate::answer::Shares;

    #[test]
    fn windows_that_would_do() {
        let of = |content, sending| {
            let mut shares = Shares::default();
            shares[Share::Sending as usize] = sending;
            let (first, end) = (None, None);
            let said = answer::Direction { nanos: 0, shares, spans: None, content, first, end, stalls: 0, waited: 0 };
            needed_window(&said, 20_000_000)
        };
        assert_eq!(of(1_000_000, 100_000_000), 200_000, "what is sent in a round trip");
        assert_eq!(of(1_000_000, 10_000_000), 1_000_000, "all of it");
        assert_eq!([of(1_000, 0), of(u64::MAX, 0)], [1_000, i64::MAX], "no time to send was seen");
    }
}
