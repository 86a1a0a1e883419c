//! Divides the life of each direction of a stream by what it was doing, without overlap and without a rest
//! (docs/WHY.md, 3), as its frames come.

use crate::answer::{Nanos, Share, Shares, Span};
use crate::course::SideCourse;
use crate::intervals::Interval;
use crate::marks::Marks;

/// Spans that are told of one direction; more are told as shares alone.
pub const MOST_SPANS: u16 = 512;
const TOO_MANY: u16 = MOST_SPANS + 1;

/// What holds back a direction: the stalls of its window, in order and without overlap, and its side's course; and when
/// it was asked to begin, and since when it only waited for its turn then.
#[derive(Clone, Copy)]
pub struct Holding<'a> {
    pub stalls: &'a [Interval],
    pub course: &'a SideCourse,
    pub asked: Nanos,
    pub turn: Nanos,
}

/// The life of one direction up to some moment: from the stream's opening on.
#[derive(Clone, Debug, PartialEq, Eq)]
pub struct Life {
    /// Up to here it is divided.
    pub at: Nanos,
    /// Its end, once it is known.
    pub until: Nanos,
    pub shares: Shares,
    pub longest_idle: Interval,
    /// Whether the side sent nothing at all in it.
    pub is_silent: bool,
    pub has_begun: bool,
    /// The first of the stream's stalls that may lie behind.
    pub stall: u32,
    /// How many spans it has; and the share of the last one.
    pub count: u16,
    pub last: Share,
    /// The spans, where they were asked for.
    pub spans: Option<Vec<Span>>,
}

pub const UNENDED: Nanos = Nanos::MAX;

impl Life {
    pub fn new(begin: Nanos, has_spans: bool) -> Life {
        Life {
            at: begin,
            until: UNENDED,
            shares: [0; 8],
            longest_idle: (begin, begin),
            is_silent: false,
            has_begun: false,
            stall: 0,
            count: 0,
            last: Share::Waiting,
            spans: has_spans.then(Vec::new),
        }
    }

    /// Packets of a frame came that were together, or one packet of a frame: from a time to another; and whether the
    /// frame was begun before, so that TCP and no application held back the rest.
    #[inline(always)] // it is called for each frame
    pub fn sent(&mut self, holding: &Holding<'_>, first: Nanos, last: Nanos, is_within: bool) {
        let first = first.max(self.at).min(self.until);
        let last = last.max(first).min(self.until);
        if !self.has_begun {
            self.wait(holding, self.at, first);
        } else if first > self.at {
            self.pause(holding, self.at, first, is_within);
        }
        self.has_begun = true;
        self.put(first, last, Share::Sending);
        self.at = last;
    }

    /// Packets of a frame came, each by itself.
    #[inline(never)]
    pub fn sent_apart(&mut self, holding: &Holding<'_>, times: &[Nanos]) {
        for (at, time) in times.iter().enumerate() {
            self.sent(holding, *time, *time, at > 0);
        }
    }

    /// Divides the rest up to its end; within a frame, where one was begun whose rest never came.
    pub fn finish(&mut self, holding: &Holding<'_>, is_within: bool) {
        let (at, until) = (self.at, self.until.max(self.at));
        if self.has_begun {
            self.pause(holding, at, until, is_within);
        } else {
            // It may have begun among what was not seen.
            let unseen = holding.course.unseen.max(at).min(until);
            self.wait(holding, at, unseen);
            self.put(unseen, until, Share::Unseen);
        }
        self.at = until;
    }

    /// Divides the stretch before its first frame.
    #[inline(never)]
    fn wait(&mut self, holding: &Holding<'_>, begin: Nanos, end: Nanos) {
        let mut begin = begin;
        let turn = holding.turn.max(holding.asked);
        for (from, to) in holding.course.waits(begin, end, holding.asked) {
            self.wait_free(begin, from, turn);
            self.put(from, to, Share::Tcp);
            begin = to;
        }
        self.wait_free(begin, end, turn);
    }

    /// Divides a stretch before its first frame in which TCP held nothing back.
    fn wait_free(&mut self, begin: Nanos, end: Nanos, turn: Nanos) {
        self.put(begin, end.min(turn), Share::Waiting);
        self.put(begin.max(turn), end, Share::Others);
    }

    /// Divides a stretch between two frames.
    #[inline(always)]
    fn pause(&mut self, holding: &Holding<'_>, begin: Nanos, end: Nanos, is_within: bool) {
        match holding.stalls.is_empty() {
            true => self.between(holding.course, begin, end, is_within),
            false => self.by_stalls(holding, begin, end, is_within),
        }
    }

    #[inline(never)]
    fn by_stalls(&mut self, holding: &Holding<'_>, begin: Nanos, end: Nanos, is_within: bool) {
        let mut begin = begin;
        let mut stalls = holding.stalls.get(self.stall as usize..).unwrap_or_default().iter().peekable();
        while stalls.next_if(|one| one.1 <= begin).is_some() {
            self.stall += 1;
        }
        while let Some(&(from, to)) = stalls.next().filter(|one| begin < end && one.0 < end) {
            let (from, until) = (from.max(begin), to.min(end));
            self.between(holding.course, begin, from, is_within);
            self.put(from, until, Share::StreamStall);
            begin = until;
            if to > end {
                break;
            }
            self.stall += 1;
        }
        self.between(holding.course, begin, end, is_within);
    }

    /// Divides a stretch without frames, and without a stall of the stream.
    #[inline(always)]
    fn between(&mut self, course: &SideCourse, begin: Nanos, end: Nanos, is_within: bool) {
        if begin >= end {
            return;
        }
        let long = if is_within { Share::Tcp } else { Share::Idle };
        match course.one_share(begin, end, is_within).filter(|_| end <= course.unseen) {
            Some(Share::Idle) => self.put(begin, end, long),
            Some(share) => self.put(begin, end, share),
            None => self.by_parts(course, begin, end, is_within),
        }
        if self.longest_idle.0 >= begin {
            self.is_silent = course.is_silent(self.longest_idle.0, self.longest_idle.1);
        }
    }

    #[inline(never)]
    fn by_parts(&mut self, course: &SideCourse, begin: Nanos, end: Nanos, is_within: bool) {
        let seen = end.min(begin.max(course.unseen));
        for (from, to, marks) in course.parts(begin, seen, is_within) {
            if from < to {
                self.by_marks(marks, from, to, is_within);
            }
        }
        let is_pause = end - seen <= course.pause();
        self.put(seen, end, if is_pause { Share::Sending } else { Share::Unseen });
    }

    /// Divides a stretch of some length by marks: into spans, as far as they are told, and the rest as sums.
    fn by_marks(&mut self, marks: &Marks, begin: Nanos, end: Nanos, is_within: bool) {
        let long = if is_within { Share::Tcp } else { Share::Idle };
        let mut told_to = begin;
        if self.is_told() {
            told_to = marks.spans(begin, end, is_within, |from, to, share| {
                self.put(from, to, if share == Share::Idle { long } else { share });
                self.is_told()
            });
        }
        if told_to == end {
            return;
        }
        let mut found = [0; 8];
        marks.measure(told_to, end, &mut found);
        if is_within {
            found[Share::Tcp as usize] += std::mem::take(&mut found[Share::Idle as usize]);
        }
        for (share, nanos) in self.shares.iter_mut().zip(found) {
            *share += nanos;
        }
    }

    fn is_told(&self) -> bool {
        self.count < TOO_MANY
    }

    /// Whether it has more spans than are told.
    pub fn has_too_many(&self) -> bool {
        !self.is_told()
    }

    #[inline(always)] // most of a frame's packets came at one time
    fn put(&mut self, begin: Nanos, end: Nanos, share: Share) {
        if begin < end {
            self.put_some(begin, end, share);
        }
    }

    #[inline]
    fn put_some(&mut self, begin: Nanos, end: Nanos, share: Share) {
        self.shares[share as usize] += end - begin;
        let (from, to) = self.longest_idle;
        if share == Share::Idle && end - begin > to - from {
            self.longest_idle = (begin, end);
        }
        if self.is_told() {
            self.tell(begin, end, share);
        }
    }

    #[inline]
    fn tell(&mut self, begin: Nanos, end: Nanos, share: Share) {
        if self.count > 0 && self.last == share {
            if let Some(span) = self.spans.as_mut().and_then(|spans| spans.last_mut()) {
                span.end = end;
            }
            return;
        }
        self.count += 1;
        self.last = share;
        if self.has_too_many() {
            self.spans = None;
        } else if let Some(spans) = &mut self.spans {
            spans.push(Span { begin, end, share });
        }
    }
}

#[cfg(test)]
mod tests {
    use super::*;
    use crate::course::Waits;

    fn life(begin: Nanos, until: Nanos) -> Life {
        Life { until, ..Life::new(begin, true) }
    }

    fn told(life: &Life) -> Vec<(Nanos, Nanos, &'static str)> {
        life.spans.iter().flatten().map(|span| (span.begin, span.end, span.share.name())).collect()
    }

    /// Shares are sums of spans, and both sum to the life.
    fn check(life: &Life, begin: Nanos) {
        let mut shares = [0; 8];
        for span in life.spans.iter().flatten() {
            shares[span.share as usize] += span.end - span.begin;
        }
        assert_eq!(shares, life.shares);
        assert_eq!(shares.iter().sum::<Nanos>(), life.until - begin);
    }

    #[test]
    fn what_it_was_doing() {
        let course = SideCourse::new(vec![(200, 300)], vec![(250, 400)], 20, 900);
        let holding = Holding { stalls: &[(110, 150), (210, 220)], course: &course, asked: 0, turn: UNENDED };
        let mut one = life(0, 1000);
        one.sent(&holding, 50, 60, false);
        one.sent(&holding, 70, 100, false);
        one.sent(&holding, 500, 500, false);
        one.finish(&holding, false);
        check(&one, 0);
        let all = [
            (0, 50, "waiting"),
            (50, 110, "sending"),
            (110, 150, "stream_stall"),
            (150, 200, "idle"),
            (200, 210, "connection_stall"),
            (210, 220, "stream_stall"),
            (220, 300, "connection_stall"),
            (300, 400, "tcp"),
            (400, 900, "idle"),
            (900, 1000, "unseen"),
        ];
        assert_eq!(told(&one), all);
        assert_eq!(one.longest_idle, (500, 900));
    }

    #[test]
    fn its_turn_comes_after_others() {
        let waits = Waits { own: vec![(50, 60)], asked: Vec::new() };
        let course = SideCourse::new(vec![], vec![], 20, UNENDED).with_waits(waits);
        for (asked, turn, all) in [
            (10, 40, [(0, 40, "waiting"), (40, 50, "others"), (50, 60, "tcp"), (60, 90, "others")]),
            (30, 20, [(0, 30, "waiting"), (30, 50, "others"), (50, 60, "tcp"), (60, 90, "others")]),
            (10, 80, [(0, 50, "waiting"), (50, 60, "tcp"), (60, 80, "waiting"), (80, 90, "others")]),
        ] {
            let mut one = life(0, 90);
            one.sent(&Holding { stalls: &[], course: &course, asked, turn }, 90, 90, false);
            check(&one, 0);
            assert_eq!(told(&one), all);
        }
    }

    #[test]
    fn what_never_began_is_not_known_behind_a_gap() {
        let course = SideCourse::new(vec![], vec![], 20, 60);
        let holding = Holding { stalls: &[], course: &course, asked: 0, turn: UNENDED };
        let mut one = life(10, 100);
        one.finish(&holding, false);
        check(&one, 10);
        assert_eq!(told(&one), [(10, 60, "waiting"), (60, 100, "unseen")]);
        let mut begun = life(10, 100);
        begun.sent(&holding, 80, 80, false);
        assert_eq!(told(&begun), [(10, 80, "waiting")]);
    }

    #[test]
    fn within_a_frame_a_longer_pause_is_tcp() {
        let course = SideCourse::new(vec![], vec![], 20, UNENDED);
        let holding = Holding { stalls: &[], course: &course, asked: 0, turn: UNENDED };
        let mut one = life(0, 300);
        for (time, is_within) in [(0, false), (100, true), (120, true)] {
            one.sent(&holding, time, time, is_within);
        }
        one.finish(&holding, true);
        check(&one, 0);
        assert_eq!(told(&one), [(0, 100, "tcp"), (100, 120, "sending"), (120, 300, "tcp")]);
    }

    #[test]
    fn times_that_go_back_count_as_the_latest_before() {
        let course = SideCourse::new(vec![], vec![], 20, UNENDED);
        let holding = Holding { stalls: &[], course: &course, asked: 0, turn: UNENDED };
        let mut one = life(100, 200);
        for (first, last) in [(50, 150), (120, 130), (400, 90)] {
            one.sent(&holding, first, last, false);
        }
        one.finish(&holding, false);
        check(&one, 100);
        assert_eq!(told(&one), [(100, 150, "sending"), (150, 200, "idle")]);
    }

    #[test]
    fn more_spans_than_are_told() {
        let held = (0..600).map(|at| (at * 100, at * 100 + 50)).collect();
        let course = SideCourse::new(vec![], held, 20, UNENDED);
        let holding = Holding { stalls: &[], course: &course, asked: 0, turn: UNENDED };
        let mut one = life(0, 60_000);
        one.sent(&holding, 0, 0, false);
        one.finish(&holding, false);
        assert!(one.has_too_many() && one.spans.is_none());
        assert_eq!((one.shares[Share::Tcp as usize], one.shares[Share::Idle as usize]), (30_000, 30_000));
    }
}
