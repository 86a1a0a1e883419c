//! What one side of a connection does beside a stream's own frames: what holds it back, which is known before the
//! frames come, and when it sends on any stream, which is learned as they come (docs/WHY.md, 3).

use crate::answer::{Nanos, Share};
use crate::intervals::{disjoint, without, Interval};
use crate::marks::Marks;

/// So many stretches are looked at in which TCP held back what a direction began with.
const MOST_WAITS: usize = 64;
/// So many of a side's last frames are looked at.
const MOST_LAST: usize = 4;
const PART: Nanos = 20;

#[derive(Clone, Debug, Default)]
pub struct SideCourse {
    /// The time from which something was not seen, or not judged.
    pub unseen: Nanos,
    /// The connection's stalls and TCP.
    held: Marks,
    /// What held back the side as far as frames came, and between that the stretches in which it sent on some stream
    /// all the time.
    sent: Marks,
    /// The last packet, from when on these are known, and the next of what holds back that is not among them.
    sent_to: Nanos,
    sent_from: Nanos,
    next: usize,
    /// The end of what holds back before that.
    held_to: Nanos,
    /// Since when the side sends without a longer pause.
    pub sends_since: Nanos,
    /// When the last frames of the side came, also those of no stream, the latest first.
    last: [Nanos; MOST_LAST],
    /// None where it held back nothing that a direction begins with.
    waits: Option<Box<Waits>>,
}

/// When TCP held back what a direction begins with.
#[derive(Clone, Debug, Default)]
pub struct Waits {
    /// What the side sent: bytes before it were missing, or a piece of it had to wait for an acknowledgement.
    pub own: Vec<Interval>,
    /// What the other side sent again: when it was sent first, and when again, in the order of the latter.
    pub asked: Vec<Interval>,
}

impl SideCourse {
    /// By stalls of the connection's window, and stretches in which TCP held back.
    pub fn new(stalls: Vec<Interval>, held: Vec<Interval>, pause: Nanos, unseen: Nanos) -> SideCourse {
        let stalled = disjoint(stalls);
        let held = without(&disjoint(held), &stalled);
        let stalled = stalled.iter().map(|one| (one.0, one.1, Share::ConnectionStall));
        let mut marked: Vec<_> = stalled.chain(held.iter().map(|one| (one.0, one.1, Share::Tcp))).collect();
        marked.sort_unstable();
        SideCourse {
            unseen,
            held: Marks::of(pause, marked.into_iter()),
            sent: Marks::new(pause),
            sent_to: Nanos::MIN,
            sent_from: Nanos::MIN,
            next: 0,
            held_to: Nanos::MIN,
            sends_since: Nanos::MAX,
            last: [Nanos::MIN; MOST_LAST],
            waits: None,
        }
    }

    /// The longest pause within sending.
    #[inline]
    pub fn pause(&self) -> Nanos {
        self.held.pause
    }

    pub fn with_waits(self, mut waits: Waits) -> SideCourse {
        waits.own = disjoint(waits.own);
        waits.asked.sort_unstable_by_key(|one| one.1);
        let is_needed = !(waits.own.is_empty() && waits.asked.is_empty());
        SideCourse { waits: is_needed.then(|| Box::new(waits)), ..self }
    }

    /// Packets with bytes of a stream's frame came.
    #[inline]
    pub fn sent(&mut self, times: &[Nanos]) {
        if times.last() == Some(&self.sent_to) {
            return;
        }
        for time in times {
            self.sent_at(*time);
        }
    }

    #[inline(never)]
    fn sent_at(&mut self, time: Nanos) {
        let from = self.sent_to;
        self.sent_to = time.max(from);
        let is_sending = from != Nanos::MIN && time.saturating_sub(from) <= self.pause();
        let mut at = from.max(self.sent.end());
        while let Some((begin, end, share)) = self.held.stretch(self.next).filter(|one| one.0 < time) {
            if is_sending {
                self.sent.push(at, begin, Share::Others);
            }
            self.sent.push(begin, end, share);
            at = at.max(end);
            self.held_to = end;
            self.next += 1;
        }
        if is_sending {
            self.sent.push(at, time, Share::Others);
        } else {
            self.sends_since = time;
        }
    }

    /// A frame of the side came, after all that it is about is done.
    #[inline]
    pub fn came(&mut self, time: Nanos) {
        let [first, second, third, _] = self.last;
        if time > first {
            self.last = [time, first, second, third];
        }
    }

    /// Whether no frame of the side came in a stretch of time that is just over, but in its first and its last
    /// twentieth, as an acknowledgement, or one that ends all. Of older stretches that is not known.
    pub fn is_silent(&self, since: Nanos, until: Nanos) -> bool {
        let part = until.saturating_sub(since) / PART;
        let (begin, end) = (since.saturating_add(part), until.saturating_sub(part));
        let is_known = self.last.iter().any(|time| *time <= begin);
        is_known && self.last.iter().all(|time| *time <= begin || *time >= end)
    }

    /// How many stretches are kept; and lets go of those that no direction needs, which none before a moment does.
    #[inline]
    pub fn kept(&self) -> usize {
        self.sent.len()
    }

    pub fn forget(&mut self, until: Nanos) {
        if let Some(known) = self.sent.forget(until) {
            self.sent_from = known;
        }
    }

    /// What all of a stretch is in which nothing of a stream was sent, where that is seen at once: a pause, or a longer
    /// one, in which nothing holds back, or a part of the last of the stretches that are known.
    #[inline]
    pub fn one_share(&self, begin: Nanos, end: Nanos, is_within: bool) -> Option<Share> {
        let is_pause = end - begin <= self.pause();
        let free = Some(if is_pause { Share::Sending } else { Share::Idle });
        if is_within || is_pause {
            let is_free = self.held.is_empty() || end <= self.sent_to && begin >= self.held_to;
            return free.filter(|_| is_free);
        }
        match self.sent.last() {
            Some((from, to, share)) if from <= begin && end <= to => Some(share),
            Some((_, to, _)) if to > begin => None,
            _ => free.filter(|_| self.held.is_empty()),
        }
    }

    /// How long TCP held back within a stretch of time.
    pub fn tcp_within(&self, begin: Nanos, end: Nanos) -> Nanos {
        let mut found = [0; 8];
        self.held.measure(begin, end, &mut found);
        found[Share::Tcp as usize]
    }

    /// When TCP held back what a direction begins with, which was asked for at a time.
    pub fn waits(&self, begin: Nanos, end: Nanos, asked: Nanos) -> Vec<Interval> {
        let Waits { own, asked: again } = match &self.waits {
            Some(waits) => &**waits,
            None => return Vec::new(),
        };
        let before = own.partition_point(|one| one.0 < end);
        let own = own[..before].iter().rev().take_while(|one| one.1 > begin).take(MOST_WAITS);
        let behind = again.partition_point(|one| one.1 <= asked);
        let again = again[behind..].iter().take(MOST_WAITS).filter(|one| one.0 <= asked && one.1 <= end);
        let all = own.map(|one| (one.0.max(begin), one.1.min(end)));
        disjoint(all.chain(again.map(|one| (asked.max(begin), one.1))).collect())
    }

    /// The parts of a stretch in which nothing of a stream was sent, each with the marks that are known of it; of a
    /// pause, or within a frame, those of what holds back alone.
    pub fn parts(&self, begin: Nanos, end: Nanos, is_within: bool) -> [(Nanos, Nanos, &Marks); 3] {
        let is_one = is_within || end - begin <= self.pause();
        let from = if is_one { end } else { self.sent_from.max(begin).min(end) };
        let to = self.sent.end().max(from).min(end);
        [(begin, from, &self.held), (from, to, &self.sent), (to, end, &self.held)]
    }
}

#[cfg(test)]
mod tests {
    use super::*;

    fn spans(course: &SideCourse, begin: Nanos, end: Nanos) -> Vec<(Nanos, Nanos, &'static str)> {
        let mut found = Vec::new();
        for (begin, end, marks) in course.parts(begin, end, false).into_iter().filter(|part| part.0 < part.1) {
            marks.spans(begin, end, false, |from, to, share| {
                found.push((from, to, share.name()));
                true
            });
        }
        found
    }

    #[test]
    fn other_streams_are_sent_where_nothing_holds_back() {
        let mut course = SideCourse::new(vec![], vec![(13, 15), (29, 31), (70, 90)], 5, 1000);
        course.sent(&[10, 12, 16, 20]);
        course.sent(&[28, 32, 80]);
        course.came(80);
        let found = [
            (0, 10, "idle"),
            (10, 13, "others"),
            (13, 15, "tcp"),
            (15, 20, "others"),
            (20, 28, "idle"),
            (28, 29, "others"),
            (29, 31, "tcp"),
            (31, 32, "others"),
            (32, 70, "idle"),
            (70, 90, "tcp"),
            (90, 100, "idle"),
        ];
        assert_eq!(spans(&course, 0, 100), found);
        assert_eq!(spans(&course, 11, 16), [(11, 13, "sending"), (13, 15, "tcp"), (15, 16, "sending")], "a pause");
        assert!(course.is_silent(79, 100) && course.is_silent(60, 81) && !course.is_silent(60, 100));
        for time in 90..94 {
            course.came(time);
        }
        assert!(!course.is_silent(80, 90), "long ago");
        course.forget(30);
        assert_eq!(spans(&course, 10, 32).last(), Some(&(31, 32, "others")));
        assert_eq!(spans(&course, 10, 20), [(10, 13, "sending"), (13, 15, "tcp"), (15, 20, "sending")], "forgotten");
    }

    #[test]
    fn what_a_direction_waits_for() {
        let waits = Waits { own: vec![(10, 20), (50, 60)], asked: vec![(5, 40), (30, 45), (2, 90)] };
        let course = SideCourse::new(vec![], vec![], 5, 1000).with_waits(waits);
        assert_eq!(course.waits(6, 55, 25), [(10, 20), (25, 40), (50, 55)]);
        assert_eq!(course.waits(6, 100, 30), [(10, 20), (30, 90)]);
        assert_eq!(course.waits(20, 50, 45), []);
    }
}
