//! What TCP did on each connection, encrypted or not: its openings and ends, what was sent and sent again, and the
//! stretches of time in which TCP held back what a side sends.
//!
//! A segment was captured twice, and not sent again, if its side's last 32 segments with payload have one with the same
//! bytes, as 64 bits of them tell, and the same IP identification or, without one, within a millisecond.

use std::num::NonZeroU64;

use captures::{Arrival, Segment};

use crate::listener::Sender;
use crate::table::Taken;
use crate::tracked::Tracked;

/// Where a stretch lasts to the end of the capture.
pub const NEVER: i64 = i64::MAX;

/// The connections of a capture, which are told from each other as h2audit does. An import fills it.
#[derive(Default)]
pub struct Courses {
    /// In the order of openings; none where its course was taken.
    pub connections: Vec<Option<Box<TcpCourse>>>,
    /// What is known of each, until the end.
    tracked: Vec<Tracked>,
}

/// What TCP did on one connection.
#[derive(Debug)]
pub struct TcpCourse {
    /// The SYN that opened it.
    pub syn: Arrival,
    /// The server's first SYN ACK, and the client's first ACK behind it.
    pub syn_ack: Option<Arrival>,
    pub ack: Option<Arrival>,
    /// [`tls::CLIENT`] and [`tls::SERVER`].
    pub sides: [Side; 2],
    /// By the side that acknowledges, the least time from a segment that was not sent again to the first that
    /// acknowledges it. A SYN counts from its last sending.
    pub ways: [Option<i64>; 2],
    /// In the order in which they ended.
    pub held: Vec<Held>,
    /// What was sent again before it was acknowledged.
    pub again: Vec<Again>,
}

/// What one side sent.
#[derive(Debug, Default)]
pub struct Side {
    /// Its first FIN and its first RST, and its last segment.
    pub fin: Option<Arrival>,
    pub rst: Option<Arrival>,
    pub last: Option<Arrival>,
    /// The first segment behind bytes that never came.
    pub lost: Option<Arrival>,
    /// Segments with payload, and those of them that were captured before.
    pub segments: u64,
    pub doubled: u64,
    /// New bytes, and bytes that were sent again.
    pub bytes: u64,
    pub resent: u64,
    pub uncaptured: Uncaptured,
    /// Whether a segment of it acknowledges, behind a handshake.
    pub acknowledges: bool,
}

/// Bytes of a side that the other one acknowledged, and that no packet of the capture has. None are counted of a side
/// with a packet that was not captured whole.
#[derive(Clone, Copy, Debug, Default, PartialEq, Eq)]
pub struct Uncaptured {
    pub bytes: u64,
    /// In so many packets at least, none being larger than those that were captured, and than the segment size.
    pub packets: u64,
    /// The first packet that shows them: one behind them, or the first that acknowledges those at the end.
    pub first: Option<Arrival>,
}

/// Why TCP held back what a side sends.
#[derive(Clone, Copy, Debug, PartialEq, Eq)]
pub enum Why {
    /// The other side's receive window was 0: from its packet to its next one with a window above 0. The window of an
    /// RST says nothing, nor that of an opening SYN. Or the next segment did not fit in what was left of it once all
    /// before was acknowledged, for 20 ms and more, up to the packet that made room for it.
    ZeroWindow,
    /// Bytes came that the side had sent before: since its segment with payload before that one.
    Resent,
    /// Bytes were missing: from the first segment behind them to the one after which none is missing up to the last
    /// that came.
    Hole,
    /// Nagle's algorithm: a piece below the segment size was held back until all before it was acknowledged, for 20 ms
    /// and more, and was sent within a tenth of that then: since the side's segment with payload before it.
    Nagle,
}

/// A stretch of time in which TCP held back what a side sends.
#[derive(Clone, Copy, Debug, PartialEq, Eq)]
pub struct Held {
    pub begin: i64,
    /// [`NEVER`] where it lasts.
    pub end: i64,
    /// The packets at which it begins and ends; both are that which brought bytes again.
    pub first: u64,
    pub last: Option<NonZeroU64>,
    /// How many bytes were sent again.
    pub bytes: u32,
    pub why: Why,
    /// The side whose bytes were held back.
    pub side: u8,
}

/// Bytes that a side sent again, as far as they were not acknowledged: when they were sent first, and when again.
#[derive(Clone, Copy, Debug, PartialEq, Eq)]
pub struct Again {
    pub side: u8,
    pub first: i64,
    pub again: i64,
}

impl Courses {
    /// Takes a segment of a connection.
    pub(crate) fn take(&mut self, taken: &Taken, arrival: Arrival, segment: &Segment<'_>) {
        let Taken { sender: Sender { connection, side }, opens } = *taken;
        if opens {
            self.open(arrival);
        }
        if let Some(course) = &mut self.connections[connection] {
            self.tracked[connection].take(course, side, arrival, segment);
        }
    }

    fn open(&mut self, arrival: Arrival) {
        self.connections.push(Some(Box::new(TcpCourse::of(arrival))));
        self.tracked.push(Tracked::default());
    }

    /// Takes a segment that was made up: it opens a connection, and says behind which number its side begins.
    pub(crate) fn made(&mut self, taken: &Taken, arrival: Arrival, segment: &Segment<'_>) {
        let Taken { sender: Sender { connection, side }, opens } = *taken;
        if opens {
            self.open(arrival);
        }
        self.tracked[connection].begin_behind(side, segment);
    }

    /// A connection's segments begin behind these numbers, where what is made up has others.
    pub(crate) fn begin(&mut self, connection: usize, initial: [Option<u32>; 2]) {
        for (side, initial) in initial.into_iter().enumerate() {
            initial.into_iter().for_each(|initial| self.tracked[connection].begin(side, initial));
        }
    }

    /// Takes the end of the capture.
    pub(crate) fn finish(&mut self) {
        for (tracked, course) in std::mem::take(&mut self.tracked).iter().zip(&mut self.connections) {
            if let Some(course) = course {
                tracked.finish(course);
            }
        }
    }
}

impl TcpCourse {
    fn of(syn: Arrival) -> TcpCourse {
        TcpCourse {
            syn,
            syn_ack: None,
            ack: None,
            sides: Default::default(),
            ways: [None; 2],
            held: Vec::new(),
            again: Vec::new(),
        }
    }
}
