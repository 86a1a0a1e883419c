//! Requests: what each of their directions was, and what held them back.

use std::rc::Rc;

use reports::Side;

use super::{At, Ended, Nanos, RoundTrip, StallWhy, Sure};

const SECOND: i128 = 1_000_000_000;

/// What each instant of a direction's life was, without overlap and without a rest.
#[derive(Clone, Copy, Debug, PartialEq, Eq, PartialOrd, Ord)]
pub enum Share {
    Waiting,
    Sending,
    StreamStall,
    ConnectionStall,
    Tcp,
    Others,
    Idle,
    Unseen,
}

impl Share {
    pub const ALL: [Share; 8] = [
        Share::Waiting,
        Share::Sending,
        Share::StreamStall,
        Share::ConnectionStall,
        Share::Tcp,
        Share::Others,
        Share::Idle,
        Share::Unseen,
    ];

    #[inline]
    pub const fn name(self) -> &'static str {
        match self {
            Share::Waiting => "waiting",
            Share::Sending => "sending",
            Share::StreamStall => "stream_stall",
            Share::ConnectionStall => "connection_stall",
            Share::Tcp => "tcp",
            Share::Others => "others",
            Share::Idle => "idle",
            Share::Unseen => "unseen",
        }
    }
}

/// Nanoseconds by [`Share`], in the order of [`Share::ALL`].
pub type Shares = [Nanos; 8];

#[derive(Clone, Copy, Debug, PartialEq, Eq)]
pub struct Span {
    pub begin: Nanos,
    pub end: Nanos,
    pub share: Share,
}

/// What one side sends on a stream.
#[derive(Clone, Debug, PartialEq, Eq)]
pub struct Direction {
    pub nanos: Nanos,
    pub shares: Shares,
    /// Where they were asked for, and are not too many.
    pub spans: Option<Vec<Span>>,
    /// Bytes of content.
    pub content: u64,
    pub first: Option<At>,
    pub end: Option<At>,
    pub stalls: u32,
    /// How much of what it waited was since the other side's last frame, without TCP and a way there and back.
    pub waited: Nanos,
}

impl Direction {
    /// How long both windows were used up.
    pub fn stalled(&self) -> Nanos {
        self.shares[Share::StreamStall as usize] + self.shares[Share::ConnectionStall as usize]
    }

    /// Bytes a second between stalls, where there was time to send.
    pub fn sending_rate(&self) -> Option<i128> {
        let sending = self.shares[Share::Sending as usize];
        (sending > 0).then(|| a_second(self.content.into(), sending))
    }
}

/// What held back a request most.
#[derive(Clone, Copy, Debug, PartialEq, Eq)]
pub enum CauseKind {
    None,
    StreamWindow,
    ConnectionWindow,
    Tcp,
    Application,
    /// Its side sent all the time, this stream or others.
    Path,
    Unseen,
}

/// What of it, more closely.
#[derive(Clone, Copy, Debug, PartialEq, Eq)]
pub enum CauseWhy {
    None,
    /// Stalls of a window.
    Stalls(StallWhy),
    /// A window that is used up within a round trip, where no stall shows.
    Unshown,
    ZeroWindow,
    Resent,
    Hole,
    Nagle,
    WithinFrame,
    /// The application sent nothing between two frames.
    Between,
    /// The application sent nothing before its first frame.
    Before,
}

/// What held back a request most, for how long, and whom to ask. The sentence is made of it when it is written.
#[derive(Clone, Copy, Debug, PartialEq, Eq)]
pub struct Cause {
    pub kind: CauseKind,
    pub why: CauseWhy,
    /// The side that had to wait, or sent nothing.
    pub side: Side,
    pub ask: Option<Side>,
    pub nanos: Nanos,
    pub first: Option<At>,
    pub last: Option<At>,
    /// The most credit of the stream's or the connection's window from before the first content on, by the walk. Where
    /// stalls do not show, what the SETTINGS and the grants before the content gave to it.
    pub window: i64,
    /// Where it is too small for a round trip: one that would do for the rate that was seen between stalls, or the
    /// window itself where no more is needed. None where both ends are too near to tell.
    pub needed: Option<i64>,
    /// The lesser of the stream's and the connection's credit as the side began to send nothing.
    pub credit: Option<i64>,
    /// The SETTINGS whose initial window was in force as it began: an index into [`ConnectionSaid::settings`].
    pub setting: Option<u32>,
    pub is_proved: bool,
    /// How sure its stalls are, in a connection of which something is inferred.
    pub sure: Option<Sure>,
    /// Whether the side sent nothing at all on the connection, where it sent nothing on the stream.
    pub is_silent: bool,
    /// If the path is the cause, what the side sent on the connection meanwhile, and how many streams shared it.
    pub content: u64,
    pub streams: u32,
}

impl Cause {
    /// Bytes a second that its window carries at most, which is granted again once a round trip.
    pub fn window_rate(&self, round_trip: &RoundTrip) -> i128 {
        a_second(self.window.into(), round_trip.nanos().unwrap_or(0))
    }

    /// With a path: bytes a second that the side sent on the connection meanwhile.
    pub fn path_rate(&self) -> i128 {
        a_second(self.content.into(), self.nanos)
    }
}

fn a_second(bytes: i128, nanos: Nanos) -> i128 {
    bytes * SECOND / i128::from(nanos.max(1))
}

/// A request, and what answered it.
#[derive(Clone, Debug, PartialEq, Eq)]
pub struct Request {
    pub stream: u32,
    pub name: Option<Rc<str>>,
    pub method: Option<Rc<str>>,
    pub path: Option<Rc<str>>,
    pub authority: Option<Rc<str>>,
    pub status: Option<u32>,
    pub grpc_status: Option<u32>,
    /// The stream of the promise, 0 where the client opened it, or the promise stood on stream 0.
    pub promised_on: u32,
    pub opened: At,
    pub ended: Ended,
    pub until: Nanos,
    /// The client's and the server's.
    pub sides: [Direction; 2],
    pub cause: Cause,
    /// How long a window held it back, if that counts; and whether one had no more grant.
    pub held: Nanos,
    pub is_hung: bool,
    /// From the begin of its last stall on, where it hung.
    pub hung_nanos: Nanos,
    /// Whether what ended it may have been among bytes that were not captured.
    pub is_end_unseen: bool,
    /// Whether it was opened before the capture: then its life is told from the connection's first packet on.
    pub was_open: bool,
}

/// Whether the server opened a stream, by a promise: those of the client are odd (RFC 9113, 5.1.1).
pub fn is_pushed(stream: u32) -> bool {
    stream % 2 == 0
}

impl Request {
    pub fn nanos(&self) -> Nanos {
        self.until - self.opened.time
    }

    /// For how long windows held it back: by the stalls of one direction, or by those that do not show.
    pub fn stalled(&self) -> Nanos {
        let shown = self.sides.iter().map(Direction::stalled).max().unwrap_or(0);
        match self.cause.kind {
            CauseKind::StreamWindow | CauseKind::ConnectionWindow => shown.max(self.cause.nanos),
            _ => shown,
        }
    }

    /// For how long windows were used up in its two directions.
    pub fn stalled_by_both(&self) -> Nanos {
        self.sides.iter().map(Direction::stalled).sum()
    }

    /// For how long a window had held back one that hung, before it hung.
    pub fn stalled_before(&self) -> Option<Nanos> {
        self.is_hung.then(|| self.cause.nanos - self.hung_nanos)
    }

    /// What puts a request before others: the time for which it was held back.
    pub fn trouble(&self) -> Nanos {
        match self.cause.kind {
            CauseKind::None | CauseKind::Unseen => 0,
            _ => self.cause.nanos,
        }
    }
}
