//! What TCP did on a connection, as far as the answer needs it: its ends, and what it held back.

use captures::Arrival;
use import::{Again, Held, TcpCourse, Why};

use crate::answer::{At, Ended, How, Nanos};
use crate::intervals::{Interval, Stretches};
use crate::side_of;

/// So many stretches behind the first that may have lost a grant are looked at.
const MOST_LOST: usize = 8;
/// Among so many stretches in which TCP held a request, at either end, the first and the last of a reason are sought.
const MOST_LOOKED_AT: usize = 256;

#[derive(Debug)]
pub struct Tcp {
    /// Each FIN and RST, by time and packet.
    closes: Box<[(At, How, usize)]>,
    /// The connection's last packet.
    pub last: At,
    /// What TCP held back, by the side that sends it.
    held: [Option<Box<HeldBack>>; 2],
    again: Vec<Again>,
}

/// What TCP held back of one side.
#[derive(Debug)]
struct HeldBack {
    /// The stretches in the order of their begins, and their sums.
    all: Vec<Held>,
    sums: Stretches<u8>,
    /// What was sent again, or came late, in the order of ends.
    resent: Vec<Interval>,
}

/// What of it held a request, and from which packet to which.
pub struct HeldBy {
    pub why: Why,
    pub first: At,
    pub last: At,
}

pub fn at_of(arrival: Arrival) -> At {
    At { packet: arrival.packet, time: arrival.nanos, frame: 0 }
}

/// A connection's last packet, or this one.
pub fn last_of(course: &TcpCourse, or: At) -> At {
    match [0, 1].map(|side| course.sides[side].last) {
        [Some(client), Some(server)] if server.nanos > client.nanos => at_of(server),
        [Some(one), _] | [None, Some(one)] => at_of(one),
        [None, None] => or,
    }
}

/// Reasons in the order in which they count, where several took as long.
const REASONS: [Why; 4] = [Why::Hole, Why::Resent, Why::ZeroWindow, Why::Nagle];

fn rank(why: Why) -> u8 {
    REASONS.iter().position(|one| *one == why).unwrap_or(0) as u8
}

impl Tcp {
    pub fn new(course: &mut TcpCourse, last: At) -> Tcp {
        let are_there = course.sides.iter().flat_map(|one| [one.fin.is_some(), one.rst.is_some()]);
        let mut closes = Vec::with_capacity(are_there.filter(|is_there| *is_there).count());
        for (side, one) in course.sides.iter().enumerate() {
            closes.extend(one.fin.map(|fin| (at_of(fin), How::Fin, side)));
            closes.extend(one.rst.map(|rst| (at_of(rst), How::Rst, side)));
        }
        closes.sort_by_key(|(at, how, side)| (at.time, at.packet, *how == How::Rst, *side));
        let last = last_of(course, last);
        let mut all = std::mem::take(&mut course.held);
        all.sort_by_key(|one| one.end);
        let held = [0, 1].map(|side| HeldBack::of(all.iter().filter(|one| usize::from(one.side) == side), last.time));
        Tcp { closes: closes.into(), last, held, again: std::mem::take(&mut course.again) }
    }

    /// How the connection ended for what was still going on at a time: its first FIN or RST from then on.
    pub fn closing(&self, after: Nanos) -> Ended {
        match self.closes.iter().find(|close| close.0.time >= after) {
            Some((at, how, side)) => Ended { how: *how, side: Some(side_of(*side)), code: None, at: Some(*at) },
            None => Ended { how: How::Capture, side: None, code: None, at: Some(self.last) },
        }
    }

    /// When TCP held back what a side sends.
    pub fn held_times(&self, side: usize) -> Vec<Interval> {
        self.held[side].iter().flat_map(|held| &held.all).map(interval).collect()
    }

    /// When TCP held back what a side would begin with.
    pub fn held_before(&self, side: usize) -> Vec<Interval> {
        let held = self.held[side].iter().flat_map(|held| &held.all);
        held.filter(|one| matches!(one.why, Why::Hole | Why::Nagle)).map(interval).collect()
    }

    /// When bytes of a side were sent again, from when they were sent first.
    pub fn sent_again(&self, side: usize) -> Vec<Interval> {
        let again = self.again.iter().filter(|one| usize::from(one.side) == side);
        again.map(|one| (one.first, one.again)).collect()
    }

    /// Whether TCP sent something again for a side, and that took most of a stretch of time.
    pub fn lost(&self, side: usize, begin: Nanos, end: Nanos) -> bool {
        let resent = self.held[side].as_ref().map_or(&[][..], |held| &held.resent);
        let from = resent.partition_point(|one| one.1 < begin);
        resent.iter().skip(from).take(MOST_LOST).any(|one| {
            let both = i128::from(one.1.min(end)) - i128::from(one.0.max(begin));
            both * 2 > i128::from(end) - i128::from(begin)
        })
    }

    /// What held back most within a stretch of time, where it explains half of what TCP held.
    pub fn held_by(&self, side: usize, (begin, end): Interval, nanos: Nanos) -> Option<HeldBy> {
        let HeldBack { all: held, sums, .. } = self.held[side].as_deref()?;
        let (first, last) = sums.within(begin, end);
        if i128::from(sums.sum(first, last)) * 2 < i128::from(nanos) {
            return None;
        }
        let reason = sums.reason(first, last)?;
        let is_so = |one: &&Held| rank(one.why) == reason;
        let begins = held.get(first..last.min(first.saturating_add(MOST_LOOKED_AT))).unwrap_or_default();
        let begins = begins.iter().find(is_so).or_else(|| held.get(first))?;
        let ends = held.get(first.max(last.saturating_sub(MOST_LOOKED_AT))..last).unwrap_or_default();
        let ends = ends.iter().rev().find(is_so).unwrap_or(begins);
        let at_end = ends.last.map(|packet| At { packet: packet.get(), time: ends.end, frame: 0 });
        let why = REASONS.get(usize::from(reason)).copied()?;
        Some(HeldBy { why, first: first_of(begins), last: at_end.unwrap_or(self.last) })
    }
}

impl HeldBack {
    /// Sums up a side's stretches, which come in the order of their ends, in a connection with this last packet.
    fn of<'a>(held: impl Iterator<Item = &'a Held>, last: Nanos) -> Option<Box<HeldBack>> {
        let mut all: Vec<Held> = held.copied().collect();
        if all.is_empty() {
            return None;
        }
        let resent = all.iter().filter(|one| matches!(one.why, Why::Hole | Why::Resent)).map(interval).collect();
        all.sort_by_key(|one| (one.begin, one.end, rank(one.why), one.first));
        let sums = Stretches::new(all.iter().map(|one| (one.begin, one.end.min(last), rank(one.why))).collect());
        Some(Box::new(HeldBack { all, sums, resent }))
    }
}

fn interval(held: &Held) -> Interval {
    (held.begin, held.end)
}

/// Bytes that came again have one packet.
fn first_of(held: &Held) -> At {
    let time = if held.why == Why::Resent { held.end } else { held.begin };
    At { packet: held.first, time, frame: 0 }
}

#[cfg(test)]
mod tests {
    use super::*;
    use std::num::NonZeroU64;

    fn arrival(packet: u64) -> Arrival {
        Arrival { packet, nanos: packet as i64 * 10 }
    }

    fn held(begin: Nanos, end: Nanos, why: Why) -> Held {
        let last = NonZeroU64::new(end as u64).filter(|_| end < 1000);
        Held { begin, end, first: begin as u64, last, bytes: 1, why, side: 1 }
    }

    fn tcp(held: Vec<Held>) -> Tcp {
        let mut course = TcpCourse {
            syn: arrival(1),
            syn_ack: None,
            ack: None,
            sides: Default::default(),
            ways: [None; 2],
            held,
            again: Vec::new(),
        };
        course.sides[0].fin = Some(arrival(7));
        course.sides[1].rst = Some(arrival(5));
        course.sides[1].last = Some(arrival(9));
        Tcp::new(&mut course, at_of(arrival(2)))
    }

    #[test]
    fn the_first_that_closes() {
        let tcp = tcp(Vec::new());
        let how = |after| (tcp.closing(after).how, tcp.closing(after).at.map(|at| at.packet));
        assert_eq!(how(50), (How::Rst, Some(5)));
        assert_eq!(how(51), (How::Fin, Some(7)));
        assert_eq!(how(71), (How::Capture, Some(9)));
    }

    #[test]
    fn what_held_most() {
        let all = vec![held(10, 20, Why::Hole), held(12, 13, Why::ZeroWindow), held(40, i64::MAX, Why::ZeroWindow)];
        let tcp = tcp(all);
        let by = tcp.held_by(1, (0, 30), 10).map(|by| (by.why, by.first.packet, by.last.packet));
        assert_eq!(by, Some((Why::Hole, 10, 20)));
        let by = tcp.held_by(1, (0, 90), 60).map(|by| (by.why, by.first.packet, by.last.packet));
        assert_eq!(by, Some((Why::ZeroWindow, 12, 9)));
        assert!(tcp.held_by(1, (0, 30), 23).is_none());
        assert!(tcp.held_by(0, (0, 30), 1).is_none());
    }

    #[test]
    fn grants_that_were_lost() {
        let tcp = tcp(vec![held(10, 20, Why::Resent), held(0, 50, Why::ZeroWindow)]);
        assert!(tcp.lost(1, 5, 21) && !tcp.lost(1, 0, 20) && !tcp.lost(0, 5, 21));
    }
}
