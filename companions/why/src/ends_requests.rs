//! How long each request was on its way, at the server, and on its way back, and what TCP lost of it, by both ends.

use std::collections::HashMap;
use std::rc::Rc;

use explain::answer::{is_pushed, At, Nanos, Request};
use explain::frames::Resent;
use explain::intervals::{disjoint, Interval};
use reports::Side;

use crate::ends::{Both, End};
use crate::wording::{count, time_of, SIDES};

/// The parts of a request's life in the client's capture, to which they sum.
#[derive(Clone, Copy, Debug, PartialEq, Eq)]
pub struct Parts {
    pub request: Nanos,
    pub out: Nanos,
    pub server: Nanos,
    pub back: Nanos,
    pub transfer: Nanos,
}

/// What a side sent again while the other one waited for its frames.
#[derive(Clone, Copy, Debug, Default, PartialEq, Eq)]
pub struct SentAgain {
    pub segments: u64,
    pub bytes: u64,
    /// Bytes that the other capture has not twice, so that they were lost on the way once.
    pub lost: u64,
    /// How long bytes of the side were missing.
    pub nanos: Nanos,
}

/// A request of the client, by both captures.
pub struct RequestOfBoth {
    pub stream: u32,
    pub name: Option<Rc<str>>,
    pub nanos: Nanos,
    /// The frames between which the server had it, in the capture of each side.
    pub asked: [Option<At>; 2],
    pub answered: [Option<At>; 2],
    pub parts: Option<Parts>,
    /// By the side that sends.
    pub again: [SentAgain; 2],
}

impl RequestOfBoth {
    pub fn words(&self) -> String {
        let parts = self.parts.map_or("a capture lacks a part of it".to_string(), |parts| {
            let Parts { request, out, server, back, transfer } = parts;
            let [request, out, server, back, transfer] = [request, out, server, back, transfer].map(time_of);
            format!("request {request}, way out {out}, server {server}, way back {back}, transfer {transfer}")
        });
        let again = SIDES.into_iter().zip(&self.again).filter(|(_, again)| **again != SentAgain::default());
        let again: String = again.map(|(side, again)| format!(". {}", again.words(side))).collect();
        format!("{}: {parts}{again}", time_of(self.nanos))
    }
}

impl SentAgain {
    fn words(&self, side: Side) -> String {
        let missing = time_of(self.nanos);
        if self.segments == 0 {
            return format!("Bytes of the {side} came out of order, and were missing for {missing}");
        }
        let (segments, bytes, lost) =
            (count(self.segments, "segment"), count(self.bytes, "byte"), count(self.lost, "byte"));
        let were = if self.lost == 1 { "was" } else { "were" };
        format!("The {side} sent {segments} again, {bytes}; {lost} {were} lost, and {were} missing for {missing}")
    }
}

/// The frames of a stream's request and answer, by their indices among those of their sides.
#[derive(Clone, Copy, Default)]
struct Turn {
    /// The first and the last one of each side.
    spans: [Option<(usize, usize)>; 2],
    /// The last one of the client before the first one of the server.
    asked: Option<usize>,
}

impl Turn {
    fn answered(&self) -> Option<usize> {
        self.spans[Side::Server as usize].map(|span| span.0)
    }
}

fn turns_of(end: &End<'_>) -> HashMap<u32, Turn> {
    let mut turns = HashMap::<u32, Turn>::new();
    let mut sizes = [0; 2];
    for frame in end.frames.all() {
        let (side, index) = (frame.side(), sizes[frame.side() as usize]);
        sizes[side as usize] += 1;
        if !frame.is_of_message() || is_pushed(frame.stream()) {
            continue;
        }
        let turn = turns.entry(frame.stream()).or_default();
        if side == Side::Client && turn.answered().is_none() {
            turn.asked = Some(index);
        }
        turn.spans[side as usize].get_or_insert((index, index)).1 = index;
    }
    turns
}

/// The requests that the client opened, in the order of their openings.
pub struct RequestsOfBoth<'a, 'b> {
    both: &'b Both<'a>,
    /// In the capture of each side.
    turns: [HashMap<u32, Turn>; 2],
    missing: [Missing; 2],
}

impl<'a, 'b> RequestsOfBoth<'a, 'b> {
    pub fn of(both: &'b Both<'a>) -> Self {
        let turns = SIDES.map(|side| turns_of(both.end(side)));
        RequestsOfBoth { both, turns, missing: SIDES.map(|side| Missing::of(both, side)) }
    }

    pub fn iter(&self) -> impl Iterator<Item = RequestOfBoth> + '_ {
        let all = self.both.end(Side::Client).said().requests.iter();
        all.filter(|request| !is_pushed(request.stream)).map(|request| self.found(&request))
    }

    fn turn(&self, end: Side, stream: u32) -> Turn {
        self.turns[end as usize].get(&stream).copied().unwrap_or_default()
    }

    fn found(&self, request: &Request) -> RequestOfBoth {
        let turn = self.turn(Side::Server, request.stream);
        let at = |side: Side, index: Option<usize>| {
            SIDES.map(|end| index.and_then(|index| self.both.end(end).at((side, index))))
        };
        let (asked, answered) = (at(Side::Client, turn.asked), at(Side::Server, turn.answered()));
        RequestOfBoth {
            stream: request.stream,
            name: request.name.clone(),
            nanos: request.nanos(),
            asked,
            answered,
            parts: self.parts(request, &turn),
            again: SIDES.map(|side| self.sent_again(request, side)),
        }
    }

    /// By the client's clock; none where a capture lacks a frame between two of the parts.
    fn parts(&self, request: &Request, turn: &Turn) -> Option<Parts> {
        let [client, server] = SIDES.map(|side| self.both.end(side));
        let here = self.turn(Side::Client, request.stream);
        let asked = turn.asked.filter(|index| *index < client.size(Side::Client))?;
        let answered = match turn.answered() {
            Some(index) => Some(index).filter(|index| *index < client.size(Side::Server)),
            None if here.answered().is_none() && here.asked == turn.asked => None,
            None => return None,
        };
        if answered.is_none() && turn.answered().is_some() {
            return None;
        }
        let mut at = request.opened.time;
        let mut until = |time: Nanos| {
            let begin = at;
            at = time.max(begin).min(request.until.max(begin));
            at - begin
        };
        let sent = until(client.time((Side::Client, asked)));
        let out = until(server.time((Side::Client, asked)));
        let answer = |end: &End<'_>| answered.map_or(request.until, |index| end.time((Side::Server, index)));
        let (took, back) = (until(answer(server)), until(answer(client)));
        Some(Parts { request: sent, out, server: took, back, transfer: until(request.until) })
    }

    /// From the side's first frame until the other one had the last.
    fn sent_again(&self, request: &Request, side: Side) -> SentAgain {
        let [here, there] = [side, side.other()].map(|end| self.both.end(end));
        let (first, last) = match self.turn(side, request.stream).spans[side as usize] {
            Some(span) => span,
            None => return SentAgain::default(),
        };
        let arrived = if last < there.size(side) { there.time((side, last)) } else { request.until };
        self.missing[side as usize].within(here.time((side, first)), arrived.min(request.until))
    }
}

/// What a side sent again, and when bytes of it were missing, by the client's clock.
struct Missing {
    /// When it sent again, and what it had sent again in all by then: segments, bytes, and lost ones.
    times: Vec<Nanos>,
    sums: Vec<[u64; 3]>,
    /// Stretches in which bytes were missing, how long all before each took, and when any ended.
    stretches: Vec<Interval>,
    lengths: Vec<Nanos>,
    ends: Vec<Nanos>,
}

impl Missing {
    fn of(both: &Both<'_>, side: Side) -> Missing {
        let clock = |end: Side| if end == Side::Server { both.ahead } else { 0 };
        let [sender, receiver] = [side, side.other()].map(|end| (both.end(end).frames, clock(end)));
        let resent = |(frames, ahead): (&explain::frames::Frames, Nanos)| {
            let mut all: Vec<Resent> = frames.resent[side as usize].clone();
            all.iter_mut().for_each(|one| (one.first, one.again) = (one.first - ahead, one.again - ahead));
            all.sort_by_key(|one| one.again);
            all
        };
        let sent = resent(sender);
        let lost = lost_of(&sent, &resent(receiver), both.round_trip / 2);
        let is_lost = sent.iter().zip(&lost).filter(|(_, lost)| **lost > 0);
        let holes = receiver.0.holes[side as usize].iter().map(|hole| (hole.0 - receiver.1, hole.1 - receiver.1));
        let all: Vec<Interval> = is_lost.map(|(one, _)| (one.first, one.again)).chain(holes).collect();
        let mut found = Missing {
            times: sent.iter().map(|one| one.again).collect(),
            sums: vec![[0; 3]],
            ends: all.iter().map(|one| one.1).collect(),
            stretches: disjoint(all),
            lengths: vec![0],
        };
        found.ends.sort_unstable();
        let mut sums = [0; 3];
        for (one, lost) in sent.iter().zip(lost) {
            sums = [sums[0] + 1, sums[1] + u64::from(one.bytes), sums[2] + u64::from(lost)];
            found.sums.push(sums);
        }
        let mut length = 0;
        for (begin, end) in &found.stretches {
            length += end - begin;
            found.lengths.push(length);
        }
        found
    }

    fn within(&self, begin: Nanos, end: Nanos) -> SentAgain {
        let before = self.sums[self.times.partition_point(|one| *one < begin)];
        let upto = self.sums[self.times.partition_point(|one| *one <= end)];
        let [segments, bytes, lost] = [0, 1, 2].map(|index| upto[index].saturating_sub(before[index]));
        // What is still missing at the end is of frames behind it.
        let last = self.ends.partition_point(|one| *one <= end).checked_sub(1).map_or(begin, |last| self.ends[last]);
        let nanos = (self.missing_by(last) - self.missing_by(begin)).max(0);
        SentAgain { segments, bytes, lost, nanos }
    }

    /// How long bytes had been missing by a time.
    fn missing_by(&self, time: Nanos) -> Nanos {
        let begun = self.stretches.partition_point(|one| one.0 < time);
        let last = begun.checked_sub(1).map_or(time, |last| self.stretches[last].1);
        self.lengths[begun] - (last - time).max(0)
    }
}

/// How many bytes of each segment that was sent again were lost before: those that the other end did not have twice.
/// What came twice there is that which was sent again last, as long before as the quickest way takes.
fn lost_of(sent: &[Resent], came_twice: &[Resent], way: Nanos) -> Vec<u32> {
    let mut lost: Vec<u32> = sent.iter().map(|one| one.bytes).collect();
    let (mut next, mut waiting) = (0, Vec::new());
    for twice in came_twice {
        while sent.get(next).map_or(false, |one| one.again + way <= twice.again) {
            waiting.push(next);
            next += 1;
        }
        let mut bytes = twice.bytes;
        while let Some(index) = waiting.last().copied().filter(|_| bytes > 0) {
            let taken = lost[index].min(bytes);
            lost[index] -= taken;
            bytes -= taken;
            if lost[index] == 0 {
                waiting.pop();
            }
        }
    }
    lost
}

#[cfg(test)]
mod tests {
    use explain::frames::Resent;

    use super::{lost_of, Missing};

    fn resent(again: i64, bytes: u32) -> Resent {
        Resent { first: again - 5, again, bytes }
    }

    #[test]
    fn what_was_lost() {
        let sent = [resent(10, 100), resent(20, 50), resent(40, 7)];
        let lost = |twice: &[Resent]| lost_of(&sent, twice, 10);
        assert_eq!(lost(&[]), [100, 50, 7]);
        assert_eq!(lost(&[resent(30, 60), resent(49, 8), resent(50, 8)]), [81, 0, 0]);
        assert_eq!(lost(&[resent(19, 60), resent(90, 999)]), [0, 0, 0]);
    }

    #[test]
    fn how_long_it_was_missing() {
        let missing = Missing {
            times: vec![30, 60],
            sums: vec![[0; 3], [1, 10, 0], [2, 30, 20]],
            stretches: vec![(10, 30), (50, 60)],
            lengths: vec![0, 20, 30],
            ends: vec![25, 30, 60],
        };
        let within = |begin, end| {
            let found = missing.within(begin, end);
            (found.segments, found.bytes, found.lost, found.nanos)
        };
        assert_eq!(within(0, 70), (2, 30, 20, 30));
        assert_eq!(within(20, 55), (1, 10, 0, 10));
        assert_eq!((within(31, 45), within(31, 55), within(12, 27)), ((0, 0, 0, 0), (0, 0, 0, 0), (0, 0, 0, 13)));
    }
}
