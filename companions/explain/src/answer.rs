//! What the answer holds (docs/WHY.md).

mod requests;
mod stalls;

pub use import::Uncaptured;
pub use joined::{Assumed, Grade, How as JoinedHow, Inferred, SideEvidence, What};
use reports::{Capture, Finding, Flow, Side};

pub use crate::beginning::Doubtful;
pub use crate::charts::{Charted, ChartsSaid, Others};
pub use crate::files::Files;
use crate::frames::Frames;
pub use crate::joining::{assumed_of, is_by_inference, Behind, JoinedSaid, Sure};
use crate::legs::print::Print;
pub use crate::legs::said::{
    Ask, Brake, Grades, HopAsk, HopSaid, Leg, Legs, Likeness, NoneWhy, PairGrade, Part, Party, PassedOn, RequestLegs,
    Who, Whose,
};
pub use crate::requests::{Requests, Room};
pub use crate::rounds::{Place, RoundTrip, Source};
pub use crate::window_waits::{StallSums, WindowWaits};
pub use crate::windows::FIRST_CREDIT;
pub use requests::{is_pushed, Cause, CauseKind, CauseWhy, Direction, Request, Share, Shares, Span};
pub use stalls::{Holder, Leak, StallEnd, StallSaid, StallWhy};

/// Nanoseconds since 1970, or between two moments.
pub type Nanos = i64;

/// A moment: a packet of the original, numbered through all files, its time, and the frame that it completes; 0 where
/// it is about none.
#[derive(Clone, Copy, Debug, PartialEq, Eq)]
pub struct At {
    pub packet: u64,
    pub time: Nanos,
    pub frame: u32,
}

/// How a stream or a connection ended.
#[derive(Clone, Copy, Debug, PartialEq, Eq)]
pub enum How {
    EndStream,
    RstStream,
    GoAway,
    Fin,
    Rst,
    Capture,
}

#[derive(Clone, Copy, Debug, PartialEq, Eq)]
pub struct Ended {
    pub how: How,
    pub side: Option<Side>,
    pub code: Option<u32>,
    pub at: Option<At>,
}

/// Whether a fault can be doubted.
#[derive(Clone, Copy, Debug, PartialEq, Eq)]
pub enum Certainty {
    Certain,
    Settings,
    Gap,
    Clock,
    /// It rests on what is inferred of a connection that began before the capture.
    Joined,
}

#[derive(Clone, Debug)]
pub struct FaultSaid {
    pub finding: Finding,
    pub at: At,
    pub certainty: Certainty,
    /// Why it can be doubted; empty where it cannot.
    pub doubt: String,
    /// The packets that set the window that it is about.
    pub set_by: Vec<At>,
    pub set_text: String,
}

impl FaultSaid {
    pub fn is_doubtful(&self) -> bool {
        self.certainty != Certainty::Certain
    }
}

/// What a peer said at the end: GOAWAY, or a reset of a stream with an error.
#[derive(Clone, Debug, PartialEq, Eq)]
pub struct Signal {
    pub is_goaway: bool,
    pub side: Side,
    pub at: At,
    pub code: u32,
    pub stream: u32,
    pub last: Option<u32>,
    pub debug: Option<String>,
}

/// An initial window that a side announced for what the other one sends.
#[derive(Clone, Copy, Debug, PartialEq, Eq)]
pub struct SettingSaid {
    pub side: Side,
    pub value: u32,
    pub at: At,
    pub acknowledged: Option<At>,
}

/// What became of a connection.
#[derive(Clone, Copy, Debug, PartialEq, Eq)]
pub enum Outcome {
    Http2,
    NotHttp2,
    NoPreface,
    NoHandshake,
    Refused,
}

impl Outcome {
    /// The report's word.
    pub fn name(self) -> &'static str {
        match self {
            Outcome::Http2 => "http2",
            Outcome::NotHttp2 => "not-http2",
            Outcome::NoPreface => "no-preface",
            Outcome::NoHandshake => "no-handshake",
            Outcome::Refused => "refused",
        }
    }
}

#[derive(Clone, Debug)]
pub struct ConnectionSaid {
    pub number: u64,
    pub client: String,
    pub server: String,
    pub opened: At,
    pub outcome: Outcome,
    /// How one that began before the capture was joined.
    pub joined: Option<Box<JoinedSaid>>,
    /// Why it was not audited, where that is known more closely.
    pub reason: String,
    /// Version and suite of TLS, and more, as the map of an import says it.
    pub tls: String,
    pub frames: u64,
    pub begin: Nanos,
    pub until: Nanos,
    pub round_trip: RoundTrip,
    pub captured_at: Option<Place>,
    pub limits: Vec<String>,
    /// The initial windows of the first SETTINGS.
    pub settings: Vec<SettingSaid>,
    pub faults: Vec<FaultSaid>,
    /// In the order in which they began.
    pub stalls: Vec<StallSaid>,
    pub leaks: Vec<Leak>,
    pub holders: Vec<Holder>,
    /// In the order of their openings.
    pub requests: Requests,
    pub signals: Vec<Signal>,
    pub ended: Ended,
    /// Its first FIN or RST, or the end of the capture.
    pub closing: Ended,
    pub notes: Vec<String>,
    pub stopped_at: Option<At>,
    /// The offset from which on bytes of a side are missing.
    pub gaps: Vec<(Side, u64)>,
    /// Bytes of a side that the other one acknowledged, and that were not captured.
    pub uncaptured: Vec<(Side, Uncaptured)>,
    /// By how many nanoseconds its times go back, at most.
    pub late: u64,
    /// What its first frames are, by sides, which tells a connection that was captured twice.
    pub print: [Print; 2],
    pub flows: Vec<Flow>,
    /// Where charts are asked for.
    pub charts: ChartsSaid,
    /// Where both ends of connections are asked about.
    pub all_frames: Option<Box<Frames>>,
}

impl ConnectionSaid {
    pub fn is_audited(&self) -> bool {
        self.outcome == Outcome::Http2
    }

    /// What is inferred of one that began before the capture.
    pub fn inferred(&self) -> Option<&Inferred> {
        self.joined.as_deref().and_then(JoinedSaid::inferred)
    }

    /// Whether something is inferred: then the report of the original has it not.
    pub fn is_inferred(&self) -> bool {
        self.inferred().is_some()
    }
}

#[derive(Clone, Debug, PartialEq, Eq)]
pub struct Warning {
    pub kind: &'static str,
    pub text: String,
    pub connection: Option<u64>,
    pub at: Option<At>,
}

/// What was not audited, by reasons.
#[derive(Clone, Debug, PartialEq, Eq)]
pub struct NotAudited {
    pub reason: String,
    pub count: u64,
    pub text: String,
}

#[derive(Clone, Debug, Default)]
pub struct Answer {
    pub files: Files,
    pub packets: u64,
    pub counts: Capture,
    pub warnings: Vec<Warning>,
    pub not_audited: Vec<NotAudited>,
    pub connections: Vec<ConnectionSaid>,
    /// Files that end within a packet, and the number of that packet in each.
    pub cuts: Vec<(usize, u64)>,
    /// Both legs of proxies, where they are asked for and found.
    pub legs: Legs,
}

impl Answer {
    pub fn audited(&self) -> impl Iterator<Item = &ConnectionSaid> {
        self.connections.iter().filter(|one| one.is_audited())
    }
}
