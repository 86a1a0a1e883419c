//! Who used a connection's credit that was not given back: cancelled streams, or one that goes on (docs/WHY.md, 4).

use std::collections::HashMap;

use crate::answer::{Holder, Leak};
use crate::stream::Stream;
use crate::table::Table;
use crate::windows::FIRST_CREDIT;

/// A stall that may be one: which, and the frames at which it begins and ends.
#[derive(Clone, Copy, Debug)]
pub struct Candidate {
    pub stall: usize,
    pub begin: u32,
    pub end: Option<u32>,
}

/// What was used and granted on a connection for what one side sends.
#[derive(Debug, Default)]
pub struct Leaks {
    side: usize,
    /// In the order of their begins, the last first.
    candidates: Vec<Candidate>,
    /// Streams that were reset, of which content came, by their order; and all that content.
    cancelled: Vec<(u32, u32)>,
    used: u64,
    granted: u64,
    /// What was granted before the first content.
    first_granted: Option<u64>,
    going_on: Option<GoingOn>,
    pub found: Vec<(usize, Leak)>,
    pub holders: Vec<Holder>,
}

/// A stall that has begun: what cancelled streams used, and what the others did.
#[derive(Debug)]
struct GoingOn {
    candidate: Candidate,
    streams: Vec<(u32, u32)>,
    used: u64,
    granted: u64,
    /// Content of streams that go on, not granted again there.
    unread: u64,
    /// For each stream that was not reset, its content, and what of it counts as unread.
    live: HashMap<u32, (u64, u64)>,
}

impl Leaks {
    pub fn new(side: usize, mut candidates: Vec<Candidate>) -> Leaks {
        candidates.sort_unstable_by_key(|one| std::cmp::Reverse(one.begin));
        Leaks { side, candidates, ..Leaks::default() }
    }

    /// DATA came, on a stream or on none.
    pub fn content(&mut self, stream: Option<&Stream>, length: u32) {
        self.first_granted = self.first_granted.or(Some(self.granted));
        if let Some(stream) = stream.filter(|stream| stream.reset.is_some()) {
            if stream.sides[self.side].content == u64::from(length) && length > 0 {
                self.cancelled.push((stream.order, stream.number));
            }
            self.used += u64::from(length);
        }
    }

    /// The other side granted on the connection.
    pub fn grant(&mut self, amount: u32) {
        self.granted += u64::from(amount);
    }

    /// A stream was reset for the first time.
    pub fn reset(&mut self, stream: &Stream) {
        let content = stream.sides[self.side].content;
        if content == 0 {
            return;
        }
        let name = (stream.order, stream.number);
        self.cancelled.push(name);
        self.used += content;
        if let Some(one) = &mut self.going_on {
            if let Some((content, unread)) = one.live.remove(&stream.number) {
                one.used += content;
                one.unread -= unread;
                one.streams.push(name);
            } else if ended_before(stream, one.candidate.begin) {
                one.used += content;
                one.streams.push(name);
            }
        }
    }

    /// All that a frame does is done.
    pub fn after(&mut self, frame: u32, table: &Table) {
        if self.candidates.last().map_or(false, |one| one.begin == frame) {
            if let Some(candidate) = self.candidates.pop() {
                self.begin(candidate, table);
            }
        }
        if self.going_on.as_ref().map_or(false, |one| one.candidate.end == Some(frame)) {
            self.end();
        }
    }

    fn begin(&mut self, candidate: Candidate, table: &Table) {
        let side = self.side;
        let capacity = self.capacity();
        let mut most = Unread::default();
        let mut one = GoingOn {
            candidate,
            streams: self.cancelled.clone(),
            used: self.used,
            granted: self.granted,
            unread: 0,
            live: HashMap::new(),
        };
        table.each_going_on(|stream| {
            let sent = &stream.sides[side];
            if stream.reset.is_none() && sent.content > 0 {
                let unread = if sent.end.is_some() { 0 } else { sent.content.saturating_sub(sent.granted) };
                one.live.insert(stream.number, (sent.content, unread));
                one.unread = one.unread.saturating_add(unread);
                most.add(stream.number, unread);
            }
        });
        // What is more than the window holds was granted on the connection, and not on the streams.
        let is_holder = one.unread <= capacity && 2 * most.bytes >= capacity && capacity > 0;
        let Unread { stream, bytes } = most;
        self.holders.extend(is_holder.then(|| Holder { begin: candidate.begin, side, stream, bytes, of: capacity }));
        self.going_on = Some(one);
    }

    /// What the window held as the first content came.
    fn capacity(&self) -> u64 {
        FIRST_CREDIT as u64 + self.first_granted.unwrap_or(self.granted)
    }

    /// The stall ends, or the connection does.
    pub fn end(&mut self) {
        let mut one = match self.going_on.take() {
            Some(one) => one,
            None => return,
        };
        let before = self.first_granted.unwrap_or(self.granted);
        let capacity = i128::from(self.capacity());
        let held = i128::from(one.used).min(capacity - i128::from(one.unread));
        // Cancelled streams hold half of the connection's window, at least.
        if one.used > 0 && 2 * held >= capacity {
            one.streams.sort_unstable();
            let leak = Leak {
                begin: one.candidate.begin,
                side: self.side,
                streams: one.streams.into_iter().map(|stream| stream.1).collect(),
                used: one.used,
                granted: one.granted.saturating_sub(before),
            };
            self.found.push((one.candidate.stall, leak));
        }
    }
}

/// The stream with most content that was not granted again on it, the first of several.
#[derive(Default)]
struct Unread {
    stream: u32,
    bytes: u64,
}

impl Unread {
    fn add(&mut self, stream: u32, bytes: u64) {
        if (bytes, std::cmp::Reverse(stream)) > (self.bytes, std::cmp::Reverse(self.stream)) {
            *self = Unread { stream, bytes };
        }
    }
}

/// Whether both sides had ended a stream up to a frame, so that it was over before it was reset.
fn ended_before(stream: &Stream, frame: u32) -> bool {
    stream.sides.iter().all(|side| !side.is_reset && side.end.map_or(false, |end| end.frame <= frame))
}

#[cfg(test)]
mod tests {
    use super::*;
    use crate::answer::At;
    use crate::stream::Reset;
    use cutter::Numbers;
    use std::rc::Rc;

    fn stream(number: u32, content: u64, granted: u64) -> Stream {
        let mut stream = Stream::new(number, number, At { packet: 0, time: 0, frame: number }, false);
        stream.sides[1].content = content;
        stream.sides[1].granted = granted;
        stream
    }

    fn table(streams: &[Stream]) -> Table {
        let mut table = Table::new(0, Numbers::new(), Rc::default());
        for stream in streams {
            table.open(stream.number, |_| stream.clone());
        }
        table
    }

    fn leaks(end: Option<u32>) -> Leaks {
        Leaks::new(1, vec![Candidate { stall: 7, begin: 20, end }])
    }

    fn reset(leaks: &mut Leaks, mut stream: Stream) {
        stream.reset(Reset { side: 0, at: At { packet: 0, time: 0, frame: 15 }, code: 8 });
        leaks.reset(&stream);
    }

    #[test]
    fn cancelled_streams_that_hold_half() {
        let mut one = leaks(Some(30));
        one.content(Some(&stream(3, 30_000, 0)), 30_000);
        one.grant(1000);
        reset(&mut one, stream(3, 30_000, 0));
        let live = table(&[stream(1, 20_000, 0), stream(5, 15_000, 15_000)]);
        one.after(20, &live);
        reset(&mut one, stream(1, 25_000, 0));
        one.grant(500);
        one.after(30, &live);
        let (stall, leak) = &one.found[0];
        assert_eq!((*stall, &leak.streams[..], leak.used, leak.granted), (7, &[1, 3][..], 50_000, 1000));
    }

    #[test]
    fn the_stream_that_holds_half() {
        let holder = |streams: &[Stream]| {
            let mut one = leaks(None);
            one.content(None, 1);
            one.after(20, &table(streams));
            one.holders.first().map(|found| (found.begin, found.stream, found.bytes, found.of))
        };
        assert_eq!(holder(&[stream(1, 40_000, 7_232), stream(3, 20_000, 0)]), Some((20, 1, 32_768, 65_535)));
        assert_eq!(holder(&[stream(1, 40_000, 7_233), stream(3, 20_000, 0)]), None, "less than half");
        assert_eq!(holder(&[stream(1, 60_000, 0), stream(3, 5_536, 0)]), None, "more than the window holds");
        assert_eq!(holder(&[stream(1, 60_000, 0), stream(3, 5_535, 0)]), Some((20, 1, 60_000, 65_535)));
        let mut cancelled = stream(1, 60_000, 0);
        cancelled.reset(Reset { side: 0, at: At { packet: 0, time: 0, frame: 15 }, code: 8 });
        assert_eq!(holder(&[cancelled, stream(3, 0, 0)]), None);
    }

    #[test]
    fn content_behind_the_begin_is_not_used() {
        let mut one = leaks(None);
        one.content(None, 1);
        one.after(20, &table(&[stream(1, 0, 0)]));
        reset(&mut one, stream(1, 65_535, 0));
        one.end();
        assert!(one.found.is_empty());
    }

    #[test]
    fn others_that_hold_most() {
        let mut one = leaks(None);
        one.content(Some(&stream(3, 10_000, 0)), 10_000);
        reset(&mut one, stream(3, 10_000, 0));
        one.after(20, &table(&[stream(1, 55_000, 0)]));
        one.end();
        assert!(one.found.is_empty());
    }
}
