//! Stalls of windows, and what made them.

use reports::Side;

use super::{At, Nanos, Sure};

/// How a stall ended.
#[derive(Clone, Copy, Debug, PartialEq, Eq)]
pub enum StallEnd {
    Grant,
    Settings,
    Reset,
    EndOfStream,
}

/// Why a stall was one.
#[derive(Clone, Copy, Debug, PartialEq, Eq)]
pub enum StallWhy {
    GrantedNothing,
    GrantedLate,
    GrantLost,
    RoundTrip,
    CancelledStreams,
    NotNeeded,
}

/// A stall of the report, and why it was one.
#[derive(Clone, Copy, Debug, PartialEq, Eq)]
pub struct StallSaid {
    pub side: Side,
    /// 0 is the connection's window.
    pub stream: u32,
    pub begin: At,
    /// None where no end was seen.
    pub end: Option<At>,
    /// The time up to which it lasts: that of its end, or of the connection's.
    pub until: Nanos,
    pub nanos: Nanos,
    pub ended_by: Option<StallEnd>,
    pub why: StallWhy,
    /// How much later than a round trip its end came.
    pub late: Nanos,
    /// How sure it is, in a connection of which something is inferred.
    pub sure: Option<Sure>,
    /// The window's credit at its begin, and at its end.
    pub credits: (i64, Option<i64>),
}

/// What used a connection's credit up to a stall that cancelled streams made.
#[derive(Clone, Debug, Default, PartialEq, Eq)]
pub struct Leak {
    /// The frame at which the stall began.
    pub begin: u32,
    pub side: usize,
    pub streams: Vec<u32>,
    pub used: u64,
    /// On the connection, beyond what it began with.
    pub granted: u64,
}

/// The stream that held most of a connection's window as a stall of it began.
#[derive(Clone, Copy, Debug, PartialEq, Eq)]
pub struct Holder {
    /// The frame at which the stall began.
    pub begin: u32,
    pub side: usize,
    pub stream: u32,
    /// Content of it that was not granted again, and how much the window holds.
    pub bytes: u64,
    pub of: u64,
}
