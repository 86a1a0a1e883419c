//! What is known of a connection's windows once all of its requests are told: how often and for how long each was used
//! up, which streams waited for the connection's, and which one held it.

use std::collections::HashMap;

use reports::Side;

use crate::answer::{Cause, CauseKind, CauseWhy, ConnectionSaid, Holder, Leak, Nanos, Request, StallSaid, StallWhy};

/// The waits for a connection's windows; each request comes by [`WindowWaits::meet`].
pub struct WindowWaits<'a> {
    said: &'a ConnectionSaid,
    /// Nothing where no window was used up.
    waits: Option<Box<Waits>>,
}

#[derive(Default)]
struct Waits {
    stalls: HashMap<(Side, u32), StallSums>,
    /// The streams that waited for the connection's window, by the side that sends.
    waited: [Vec<u32>; 2],
    /// The streams among them without content, and up to when they lasted.
    silent: [Vec<(u32, Nanos)>; 2],
}

/// What the stalls of a window come to.
#[derive(Clone, Copy, Debug, Default, PartialEq, Eq)]
pub struct StallSums {
    pub count: u64,
    /// How late the latest grant was, or how long the longest stall where none came late.
    pub longest: Nanos,
    /// The sum of all.
    pub nanos: Nanos,
}

impl StallSums {
    fn add(&mut self, stall: &StallSaid) {
        self.count += 1;
        self.longest = self.longest.max(if stall.late == 0 { stall.nanos } else { stall.late });
        self.nanos += stall.nanos;
    }
}

impl<'a> WindowWaits<'a> {
    pub fn new(said: &'a ConnectionSaid) -> WindowWaits<'a> {
        let mut waits: Option<Box<Waits>> = None;
        for one in &said.stalls {
            waits.get_or_insert_with(Box::default).stalls.entry((one.side, one.stream)).or_default().add(one);
        }
        WindowWaits { said, waits }
    }

    pub fn meet(&mut self, request: &Request) {
        if request.cause.kind == CauseKind::ConnectionWindow {
            let (side, waits) = (request.cause.side as usize, self.waits.get_or_insert_with(Box::default));
            waits.waited[side].push(request.stream);
            if request.sides[side].content == 0 {
                waits.silent[side].push((request.stream, request.until));
            }
        }
    }

    /// The stalls of the window that held back a request.
    pub fn of_cause(&self, request: &Request) -> Option<&StallSums> {
        let stream = if request.cause.kind == CauseKind::StreamWindow { request.stream } else { 0 };
        self.stalls_of(request.cause.side, stream)
    }

    fn stalls_of(&self, side: Side, stream: u32) -> Option<&StallSums> {
        self.waits.as_ref()?.stalls.get(&(side, stream))
    }

    /// How often a request's own windows were used up.
    pub fn times(&self, request: &Request) -> u64 {
        let of_side = |side| self.stalls_of(side, request.stream).map_or(0, |sums| sums.count);
        of_side(Side::Client) + of_side(Side::Server)
    }

    /// Where several requests waited for the connection's window, as one with this cause: their streams, without the
    /// one that held it.
    pub fn waited_together(&self, cause: &Cause) -> Option<Vec<u32>> {
        let waited = &self.waits.as_ref()?.waited[cause.side as usize];
        let holder = self.holder(cause).map_or(0, |holder| holder.stream);
        (waited.len() > 1).then(|| waited.iter().copied().filter(|stream| *stream != holder).collect())
    }

    /// The stream that held most of the connection's window, unless cancelled ones did.
    pub fn holder(&self, cause: &Cause) -> Option<&'a Holder> {
        let first = cause.first.map_or(0, |at| at.frame);
        let last = cause.last.map_or(u32::MAX, |at| at.frame.max(first));
        let is_its = |one: &&Holder| one.side == cause.side as usize && (first..=last).contains(&one.begin);
        let is_leak = cause.why == CauseWhy::Stalls(StallWhy::CancelledStreams);
        self.said.holders.iter().find(is_its).filter(|_| !is_leak)
    }

    /// The stalls that cancelled streams made, each with what used the credit up to it.
    pub fn leaks(&self) -> impl Iterator<Item = (&'a StallSaid, &'a Leak)> {
        let said = self.said;
        let leaking = said.stalls.iter().filter(|one| one.why == StallWhy::CancelledStreams);
        leaking.filter_map(move |stall| {
            let is_its = |leak: &&Leak| leak.begin == stall.begin.frame && leak.side == stall.side as usize;
            Some((stall, said.leaks.iter().find(is_its)?))
        })
    }

    /// The streams that waited for the connection's window in a stall of it, and never had a byte.
    pub fn without_content(&self, stall: &StallSaid) -> Vec<u32> {
        let silent = self.waits.iter().flat_map(|waits| &waits.silent[stall.side as usize]);
        let silent = silent.filter(|(_, until)| *until > stall.begin.time);
        silent.map(|(stream, _)| *stream).collect()
    }
}

#[cfg(test)]
mod tests {
    use super::*;
    use crate::answer::At;
    use crate::causes::no_cause;
    use crate::legs::account_rules::request;
    use crate::telling::unsaid;

    fn at(frame: u32) -> At {
        At { packet: 0, time: frame.into(), frame }
    }

    fn stall(stream: u32, frame: u32, (nanos, late): (Nanos, Nanos), why: StallWhy) -> StallSaid {
        let (side, begin, end, until) = (Side::Server, at(frame), None, Nanos::from(frame) + nanos);
        let (ended_by, sure, credits) = (None, None, (0, None));
        StallSaid { side, stream, begin, end, until, nanos, ended_by, why, late, sure, credits }
    }

    /// A stream that waited for the connection's window from a frame on, and what it got.
    fn waiting(stream: u32, first: u32, content: u64) -> Request {
        let (kind, why) = (CauseKind::ConnectionWindow, CauseWhy::Stalls(StallWhy::GrantedLate));
        let mut one = request(0, [&[], &[]]);
        one.cause = Cause { kind, why, side: Side::Server, first: Some(at(first)), ..no_cause() };
        (one.stream, one.until, one.sides[1].content) = (stream, 100, content);
        one
    }

    fn connection() -> ConnectionSaid {
        let mut said = unsaid(1, String::new(), String::new(), at(1));
        said.stalls = vec![
            stall(3, 8, (7, 0), StallWhy::RoundTrip),
            stall(0, 9, (30, 20), StallWhy::GrantedLate),
            stall(0, 99, (10, 0), StallWhy::CancelledStreams),
        ];
        said.holders = vec![Holder { begin: 9, side: 1, stream: 5, bytes: 60, of: 100 }];
        said.leaks = vec![Leak { begin: 99, side: 1, streams: vec![7], used: 80, granted: 10 }];
        said
    }

    #[test]
    fn how_often_and_for_how_long() {
        let said = connection();
        let waits = WindowWaits::new(&said);
        let one = waiting(3, 9, 0);
        assert_eq!(waits.of_cause(&one), Some(&StallSums { count: 2, longest: 20, nanos: 40 }));
        assert_eq!([waits.times(&one), waits.times(&waiting(5, 9, 0))], [1, 0]);
        let mut other = one;
        other.cause.kind = CauseKind::StreamWindow;
        assert_eq!(waits.of_cause(&other), Some(&StallSums { count: 1, longest: 7, nanos: 7 }));
        other.cause.side = Side::Client;
        assert_eq!(waits.of_cause(&other), None);
    }

    #[test]
    fn who_waited_for_whom() {
        let said = connection();
        let mut waits = WindowWaits::new(&said);
        let all = [waiting(3, 9, 0), waiting(5, 10, 60), waiting(11, 9, 1)];
        waits.meet(&all[0]);
        assert_eq!(waits.waited_together(&all[0].cause), None, "it is the only one");
        all[1..].iter().for_each(|one| waits.meet(one));
        let holder = |one: &Request| waits.holder(&one.cause).map(|holder| holder.stream);
        assert_eq!([holder(&all[0]), holder(&all[1])], [Some(5), None], "within its stalls");
        assert_eq!(waits.waited_together(&all[0].cause), Some(vec![3, 11]));
        assert_eq!(waits.waited_together(&all[1].cause), Some(vec![3, 5, 11]));
    }

    #[test]
    fn what_cancelled_streams_did() {
        let said = connection();
        let mut waits = WindowWaits::new(&said);
        let mut all = [waiting(3, 9, 0), waiting(5, 9, 60), waiting(11, 9, 0)];
        all[2].until = 99;
        all.iter().for_each(|one| waits.meet(one));
        let leaks: Vec<_> = waits.leaks().map(|(stall, leak)| (waits.without_content(stall), leak.used)).collect();
        assert_eq!(leaks, [(vec![3], 80)], "what had ended before the stall does not count");
        all[0].cause.why = CauseWhy::Stalls(StallWhy::CancelledStreams);
        assert_eq!(waits.holder(&all[0].cause), None);
    }
}
