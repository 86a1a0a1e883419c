//! The division of a life, beside one that asks of each nanosecond what it is, by the definitions of docs/WHY.md.

use mutations::Dice;

use crate::answer::{Nanos, Share, Shares};
use crate::course::{SideCourse, Waits};
use crate::intervals::{disjoint, Interval};
use crate::life::{Holding, Life};

/// What holds back a direction, and its frames, of which each may have been begun before.
#[derive(Debug)]
struct Case {
    life: Interval,
    frames: Vec<(Interval, bool)>,
    /// Whether a frame was begun whose rest never came.
    is_cut: bool,
    stalls: Vec<Interval>,
    connection: Vec<Interval>,
    held: Vec<Interval>,
    /// What held back its beginning: its own bytes; and those that asked for it, from first to last sending.
    waits: Waits,
    asked: Nanos,
    /// Since when it only waits for its turn.
    turn: Nanos,
    /// Packets of other streams of its side.
    others: Vec<Nanos>,
    pause: Nanos,
    unseen: Nanos,
}

fn number(dice: &mut Dice, end: usize) -> Nanos {
    dice.below(end) as Nanos
}

/// Some stretches in order of their begins, of which some overlap.
fn intervals(dice: &mut Dice, unseen: Nanos) -> Vec<Interval> {
    let mut begins: Vec<Nanos> = (0..dice.below(5)).map(|_| number(dice, 60)).collect();
    begins.sort_unstable();
    begins.into_iter().map(|begin| (begin, (begin + number(dice, 16)).min(unseen))).collect()
}

impl Case {
    fn new(dice: &mut Dice) -> Case {
        let (one, other) = (number(dice, 60), number(dice, 60));
        let unseen = *dice.of_these(&[1000, 1000, 30]);
        let mut begins: Vec<Nanos> = (0..dice.below(6)).map(|_| number(dice, 70)).collect();
        begins.sort_unstable();
        let mut frames = Vec::<(Interval, bool)>::new();
        for begin in begins {
            let before = frames.last().map_or(0, |frame| frame.0 .1);
            let last = begin + *dice.of_these(&[0, 0, 3]);
            if last >= before {
                frames.push(((begin.max(before), last), !frames.is_empty() && dice.below(10) < 3));
            }
        }
        Case {
            life: (one.min(other), one.max(other)),
            is_cut: !frames.is_empty() && dice.below(10) < 3,
            frames,
            stalls: disjoint(intervals(dice, unseen)),
            connection: intervals(dice, unseen),
            held: intervals(dice, Nanos::MAX),
            waits: Waits { own: intervals(dice, Nanos::MAX), asked: intervals(dice, Nanos::MAX) },
            asked: number(dice, 70),
            turn: *dice.of_these(&[Nanos::MAX, Nanos::MAX, 0, 20, 50]),
            others: (0..*dice.of_these(&[0, 6, 20])).map(|_| number(dice, 70)).collect(),
            pause: *dice.of_these(&[0, 2, 5, 60]),
            unseen,
        }
    }

    fn divided(&self, has_spans: bool) -> Life {
        let course = SideCourse::new(self.connection.clone(), self.held.clone(), self.pause, self.unseen);
        let mut course = course.with_waits(self.waits.clone());
        course.sent(&self.packets());
        let holding = Holding { stalls: &self.stalls, course: &course, asked: self.asked, turn: self.turn };
        let mut life = Life { until: self.life.1, ..Life::new(self.life.0, has_spans) };
        for ((first, last), is_within) in &self.frames {
            life.sent(&holding, *first, *last, *is_within);
        }
        life.finish(&holding, self.is_cut);
        life
    }

    /// All packets of its side with bytes of frames.
    fn packets(&self) -> Vec<Nanos> {
        let own = self.frames.iter().flat_map(|frame| [frame.0 .0, frame.0 .1]);
        let mut all: Vec<Nanos> = own.chain(self.others.iter().copied()).collect();
        all.sort_unstable();
        all
    }

    /// How long the stretch around a moment is in which nothing of the stream was sent, and its window was not stalled.
    fn around(&self, at: Nanos) -> Nanos {
        let is_taken = |at: Nanos| {
            let is_sent = self.frames.iter().any(|frame| (frame.0 .0..frame.0 .1).contains(&at));
            is_sent || self.stalls.iter().any(|one| (one.0..one.1).contains(&at))
        };
        let is_border = |at: Nanos| {
            let is_sent = self.frames.iter().any(|frame| frame.0 .0 == at || frame.0 .1 == at);
            is_sent || at == self.unseen || at == self.life.0 || at == self.life.1
        };
        let (mut begin, mut end) = (at, at + 1);
        while !is_border(begin) && !is_taken(begin - 1) {
            begin -= 1;
        }
        while !is_border(end) && !is_taken(end) {
            end += 1;
        }
        end - begin
    }

    /// Whether the side sent other streams all the time around a moment, in a longer pause of this one.
    fn is_beside(&self, at: Nanos) -> bool {
        let packets = self.packets();
        let is_sending = packets.windows(2).any(|two| (two[0]..two[1]).contains(&at) && two[1] - two[0] <= self.pause);
        is_sending && self.long_at(at) == Share::Idle && self.around(at) > self.pause
    }

    /// Whether TCP held back its beginning at a moment before that.
    fn is_waiting_for_tcp(&self, at: Nanos, first: Nanos) -> bool {
        let is_asked = |one: &&Interval| one.0 <= self.asked && one.1 > self.asked && one.1 <= first;
        let mut asked = self.waits.asked.iter().filter(is_asked);
        self.waits.own.iter().any(|one| (one.0..one.1).contains(&at))
            || asked.any(|one| (self.asked..one.1).contains(&at))
    }

    /// What a moment is, where it is not free.
    fn share_at(&self, at: Nanos) -> Option<Share> {
        let is_in = |some: &[Interval]| some.iter().any(|one| (one.0..one.1).contains(&at));
        let seen = self.life.1.min(self.unseen);
        let first = self.frames.first().map_or(seen, |frame| frame.0 .0);
        match () {
            () if self.frames.is_empty() && at >= seen => Some(Share::Unseen),
            () if at < first && self.is_waiting_for_tcp(at, first.min(self.life.1)) => Some(Share::Tcp),
            () if at < first && at >= self.turn.max(self.asked) => Some(Share::Others),
            () if at < first => Some(Share::Waiting),
            () if self.frames.iter().any(|frame| (frame.0 .0..frame.0 .1).contains(&at)) => Some(Share::Sending),
            () if is_in(&self.stalls) => Some(Share::StreamStall),
            () if at >= self.unseen => None,
            () if is_in(&self.connection) => Some(Share::ConnectionStall),
            () if is_in(&self.held) => Some(Share::Tcp),
            () if self.is_beside(at) => Some(Share::Others),
            () => None,
        }
    }

    /// What a free stretch from a moment on is where it is no pause.
    fn long_at(&self, at: Nanos) -> Share {
        let before = self.frames.iter().filter(|frame| frame.0 .1 <= at).count();
        let is_within = self.frames.get(before).map_or(self.is_cut, |frame| frame.1);
        match () {
            () if at >= self.unseen => Share::Unseen,
            () if is_within => Share::Tcp,
            () => Share::Idle,
        }
    }

    fn by_nanosecond(&self) -> Shares {
        let (mut shares, (mut at, end)) = ([0; 8], self.life);
        let is_border =
            |at: Nanos| at == self.unseen || self.frames.iter().any(|frame| frame.0 .0 == at || frame.0 .1 == at);
        while at < end {
            let begin = at;
            at += 1;
            let share = self.share_at(begin).unwrap_or_else(|| {
                while at < end && self.share_at(at).is_none() && !is_border(at) {
                    at += 1;
                }
                if at - begin <= self.pause {
                    Share::Sending
                } else {
                    self.long_at(begin)
                }
            });
            shares[share as usize] += at - begin;
        }
        shares
    }
}

#[test]
fn as_nanosecond_by_nanosecond() {
    mutations::each(20_000, |dice| {
        let case = Case::new(dice);
        let wanted = case.by_nanosecond();
        for has_spans in [true, false] {
            assert_eq!(case.divided(has_spans).shares, wanted, "{case:?}");
        }
        let mut told = [0; 8];
        for span in case.divided(true).spans.iter().flatten() {
            told[span.share as usize] += span.end - span.begin;
        }
        assert_eq!(told, wanted, "{case:?}");
    });
}
