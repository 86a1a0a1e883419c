//! What is known of requests before any two are matched, and which of them can be two legs of one.

use crate::answer::{is_pushed, Nanos};
use crate::legs::course::SLACK;
use crate::stream::Stream;

/// From here on a status is a failure of the server (RFC 9110, 15.6).
const SERVER_ERROR: u32 = 500;

/// What one side sends of a request.
#[derive(Clone, Copy, Debug, Default)]
pub struct Way {
    /// Bytes of content, without padding.
    pub content: u64,
    /// When its first frame was whole, if there was one; and when it ended, by END_STREAM if it is whole.
    pub first: Option<Nanos>,
    pub end: Nanos,
    pub is_whole: bool,
    /// Whether it may go on after what was captured.
    pub is_open: bool,
    /// Whether there is content or padding.
    pub has_content: bool,
}

/// A request that a client opened while the capture ran.
#[derive(Clone, Debug, Default)]
pub struct Request {
    /// The places of its connection and of itself in an answer.
    pub connection: usize,
    pub place: usize,
    pub stream: u32,
    pub opened: Nanos,
    pub until: Nanos,
    /// Numbers of texts, 0 where one is unknown: the method, the path, and its last part.
    pub method: u32,
    pub path: u32,
    pub last: u32,
    pub ids: [u64; 2],
    pub status: Option<u32>,
    /// The client's and the server's.
    pub ways: [Way; 2],
}

/// What of a request that was answered to its end tells whether another listener's can have carried it.
#[derive(Clone, Copy, Debug, PartialEq, Eq)]
pub struct Whole {
    pub listener: u32,
    pub last: u32,
    pub brief: Brief,
}

/// What of that is known without the connection and the last part of the path. It is kept of each stream while frames
/// come, so that hops are sought without reading all streams again.
#[derive(Clone, Copy, Debug, Default, PartialEq, Eq)]
pub struct Brief {
    /// 0 where it is none: such a stream is never opened.
    pub stream: u32,
    pub method: u32,
    pub path: u32,
    /// More than any where there is none.
    pub status: u32,
    pub contents: [u64; 2],
    pub opened: Nanos,
    /// The end of the answer.
    pub end: Nanos,
}

/// A connection that was audited.
#[derive(Clone, Debug, Default)]
pub struct LegConnection {
    /// The number of its server's address and port.
    pub listener: usize,
    /// Whether something of it was not seen, or came out of order.
    pub is_doubtful: bool,
}

/// A connection that was not read, though it may have carried requests.
#[derive(Clone, Copy, Debug)]
pub struct Unread {
    pub listener: usize,
    pub begin: Nanos,
    pub until: Nanos,
}

#[derive(Debug, Default)]
pub struct Facts {
    pub connections: Vec<LegConnection>,
    /// The requests of hops, by the times of their openings.
    pub requests: Vec<Request>,
    /// The names of listeners, addresses with ports.
    pub listeners: Vec<String>,
    pub unread: Vec<Unread>,
    /// When connections were opened that got no answer.
    pub openings: Vec<Nanos>,
    /// Whether some connection of which not even the ends are known was not read.
    pub has_unknown: bool,
}

impl Brief {
    /// The facts of a stream that a client opened and a server answered to its end; none of any other stream.
    pub fn of(stream: &Stream) -> Option<Brief> {
        let [asking, answer] = &stream.sides;
        let is_reset = answer.is_reset && stream.reset.is_some();
        let end = answer.end.filter(|_| !is_reset && !is_pushed(stream.number))?;
        let (method, path) = stream.request.map_or((0, 0), |asked| (asked.method, asked.path));
        Some(Brief {
            stream: stream.number,
            method,
            path,
            status: stream.answer.fields.and_then(|fields| fields.status).unwrap_or(u32::MAX),
            contents: [asking, answer].map(|side| side.content.saturating_sub(side.padding)),
            opened: stream.opened.time,
            end: end.time,
        })
    }
}

impl Request {
    /// Whether it was answered to its end.
    pub fn is_whole(&self) -> bool {
        self.ways[1].is_whole
    }

    /// Whether the proxy may have answered a front request by this one, as far as times, lengths and status tell.
    pub fn may_answer(&self, front: &Request) -> bool {
        let [mine, theirs] = [self.ways[1], front.ways[1]];
        if !self.may_be_opened_for(front) || behind(mine.first, theirs.first) {
            return false;
        }
        match (self.is_whole(), front.is_whole()) {
            (true, true) => {
                let is_same = self.status == front.status && mine.content == theirs.content;
                is_same && mine.end <= theirs.end.saturating_add(SLACK) && self.is_asked_as(front)
            }
            (false, true) => false,
            (_, false) => theirs.content <= mine.content && (front.status.is_none() || front.status == self.status),
        }
    }

    /// Whether the proxy may have tried to carry a front request by this one, which failed.
    pub fn may_be_try_of(&self, front: &Request) -> bool {
        self.has_failed() && self.may_be_opened_for(front) && self.until <= front.until.saturating_add(SLACK)
    }

    /// Whether it was seen to fail: one that is open, or whose end may be lost, was not.
    pub fn has_failed(&self) -> bool {
        let is_over = !self.ways[1].is_open;
        is_over && (!self.is_whole() || self.status.map_or(false, |status| status >= SERVER_ERROR))
    }

    /// Whether its answer was seen to begin and to end.
    pub fn is_answered(&self) -> bool {
        !self.ways[1].is_open && self.ways[1].first.is_some()
    }

    /// Whether it was opened within the life of a front request that has the same id. Its content may have been
    /// changed, as by compression.
    pub fn may_have_id_of(&self, front: &Request) -> bool {
        front.opened <= self.opened.saturating_add(SLACK) && self.opened <= front.until
    }

    fn may_be_opened_for(&self, front: &Request) -> bool {
        self.may_have_id_of(front) && self.ways[0].content <= front.ways[0].content
    }

    /// Whether both requests have the same content, where both are whole.
    fn is_asked_as(&self, front: &Request) -> bool {
        let are_whole = self.ways[0].is_whole && front.ways[0].is_whole;
        !are_whole || self.ways[0].content == front.ways[0].content
    }
}

/// Whether what was handed on came before what came.
fn behind(came: Option<Nanos>, sent: Option<Nanos>) -> bool {
    match (came, sent) {
        (Some(came), Some(sent)) => sent.saturating_add(SLACK) < came,
        (None, Some(_)) => true,
        (_, None) => false,
    }
}

impl Facts {
    pub fn listener(&self, request: &Request) -> usize {
        self.connections.get(request.connection).map_or(0, |one| one.listener)
    }

    pub fn is_doubtful(&self, request: &Request) -> bool {
        self.connections.get(request.connection).map_or(true, |one| one.is_doubtful)
    }
}

#[cfg(test)]
pub mod tests {
    use super::*;
    use crate::answer::At;
    use crate::stream::{Answered, RequestFields, Reset};

    /// A request on a connection with a path, which is whole, its answer's first frame in its middle.
    pub fn request(connection: usize, (opened, until): (Nanos, Nanos), path: u32, content: u64) -> Request {
        Request {
            connection,
            stream: 1,
            opened,
            until,
            method: 1,
            path,
            last: path,
            status: Some(200),
            ways: [
                Way { first: Some(opened), end: opened, is_whole: true, ..Way::default() },
                Way { content, first: Some((opened + until) / 2), end: until, is_whole: true, ..Way::default() },
            ],
            ..Request::default()
        }
    }

    /// What counts of a whole one where it was, as one of a listener.
    pub fn whole(one: &Request, listener: usize) -> Option<Whole> {
        let Request { stream, method, path, last, opened, ways, .. } = *one;
        let (status, contents) = (one.status.unwrap_or(u32::MAX), ways.map(|way| way.content));
        let brief = Brief { stream, method, path, status, contents, opened, end: ways[1].end };
        one.is_whole().then(|| Whole { listener: listener as u32, last, brief })
    }

    /// Connections by their listeners.
    pub fn facts(listeners: &[usize], requests: Vec<Request>) -> Facts {
        let connection = |listener: &usize| LegConnection { listener: *listener, is_doubtful: false };
        let names = listeners.iter().max().map_or(0, |most| most + 1);
        let mut facts = Facts {
            connections: listeners.iter().map(connection).collect(),
            listeners: (0..names).map(|name| format!("10.0.0.{name}:80")).collect(),
            requests,
            ..Facts::default()
        };
        facts.requests.sort_by_key(|one| one.opened);
        facts
    }

    #[test]
    fn what_is_brief() {
        let at = |time| At { packet: 1, time, frame: 1 };
        let mut one = Stream::new(7, 3, at(10), false);
        one.request = Some(RequestFields { is_empty: false, method: 1, path: 2, authority: 3, ids: [0; 2] });
        one.sides[1].content = 9;
        one.sides[1].padding = 4;
        assert_eq!(Brief::of(&one), None, "it goes on");
        one.sides[1].finish_at(at(90));
        let brief = Brief { stream: 7, method: 1, path: 2, status: u32::MAX, contents: [0, 5], opened: 10, end: 90 };
        assert_eq!(Brief::of(&one), Some(brief));
        one.answer.fields = Some(Answered { is_informational: false, status: Some(200), grpc_status: None });
        one.reset(Reset { side: 0, at: at(95), code: 0 });
        assert_eq!(Brief::of(&one), Some(Brief { status: 200, ..brief }), "its answer had ended");
        one.sides[1].is_reset = true;
        assert_eq!(Brief::of(&one), None);
        one.sides[1].is_reset = false;
        one.number = 8;
        assert_eq!(Brief::of(&one), None, "a pushed one");
    }

    const FRONT: (Nanos, Nanos) = (10_000, 90_000);

    #[test]
    fn what_can_have_carried_a_request() {
        let front = request(0, FRONT, 1, 500);
        let may = |change: fn(&mut Request)| {
            let mut back = request(1, (20_000, 80_000), 1, 500);
            change(&mut back);
            back.may_answer(&front)
        };
        assert!(may(|_| ()));
        assert!(!may(|back| back.opened = 7_000), "it was opened before");
        assert!(!may(|back| back.ways[1].content = 499));
        assert!(!may(|back| back.status = Some(404)));
        assert!(!may(|back| back.ways[0].content = 1), "it asks with more than came");
        assert!(!may(|back| back.ways[1].end = 93_000), "it ended later");
        assert!(!may(|back| back.ways[1].first = Some(53_000)), "its head came later");
        assert!(!may(|back| back.ways[1].is_whole = false));
    }

    #[test]
    fn the_client_goes_away_in_the_middle() {
        let mut front = request(0, FRONT, 1, 300);
        front.ways[1].is_whole = false;
        let mut back = request(1, (20_000, 80_000), 1, 500);
        assert!(back.may_answer(&front));
        back.ways[1].is_whole = false;
        assert!(back.may_answer(&front));
        back.ways[1].content = 299;
        assert!(!back.may_answer(&front), "more was handed on than came");
    }

    #[test]
    fn tries_fail() {
        let front = request(0, FRONT, 1, 500);
        let mut back = request(1, (20_000, 30_000), 1, 0);
        assert!(!back.may_be_try_of(&front), "it was answered");
        back.status = Some(503);
        assert!(back.may_be_try_of(&front) && !back.may_answer(&front));
        back.ways[1].is_whole = false;
        back.status = None;
        assert!(back.may_be_try_of(&front));
        back.until = 93_000;
        assert!(!back.may_be_try_of(&front), "it lasted longer");
        back.until = 30_000;
        back.ways[1].is_open = true;
        assert!(!back.may_be_try_of(&front) && !back.is_answered(), "it may go on after the capture");
    }
}
