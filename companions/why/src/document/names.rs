//! The words of JSON and of rows for what the answer tells apart.

use explain::answer::{Cause, CauseKind, CauseWhy, Certainty, Place, Signal, Source, StallEnd, StallWhy};

/// The side that had to wait, or sent nothing, where one is named.
pub fn cause_side(one: &Cause) -> Option<&'static str> {
    match one.kind {
        CauseKind::None | CauseKind::Unseen => None,
        _ => Some(one.side.name()),
    }
}

pub fn kind_name(kind: CauseKind) -> &'static str {
    match kind {
        CauseKind::None => "none",
        CauseKind::StreamWindow => "stream-window",
        CauseKind::ConnectionWindow => "connection-window",
        CauseKind::Tcp => "tcp",
        CauseKind::Application => "application",
        CauseKind::Path => "path",
        CauseKind::Unseen => "unseen",
    }
}

pub fn why_name(why: CauseWhy) -> Option<&'static str> {
    match why {
        CauseWhy::None => None,
        CauseWhy::Stalls(why) => Some(stall_name(why)),
        CauseWhy::Unshown => Some("unshown"),
        CauseWhy::ZeroWindow => Some("zero-window"),
        CauseWhy::Resent => Some("resent"),
        CauseWhy::Hole => Some("hole"),
        CauseWhy::Nagle => Some("nagle"),
        CauseWhy::WithinFrame => Some("within-frame"),
        CauseWhy::Between => Some("between"),
        CauseWhy::Before => Some("before"),
    }
}

pub(super) fn stall_name(why: StallWhy) -> &'static str {
    match why {
        StallWhy::GrantedNothing => "granted-nothing",
        StallWhy::GrantedLate => "granted-late",
        StallWhy::GrantLost => "grant-lost",
        StallWhy::RoundTrip => "round-trip",
        StallWhy::CancelledStreams => "cancelled-streams",
        StallWhy::NotNeeded => "not-needed",
    }
}

pub(super) fn stall_end_name(end: StallEnd) -> &'static str {
    match end {
        StallEnd::Grant => "grant",
        StallEnd::Settings => "settings",
        StallEnd::Reset => "reset",
        StallEnd::EndOfStream => "end-of-stream",
    }
}

pub fn signal_word(one: &Signal) -> &'static str {
    if one.is_goaway {
        "GOAWAY"
    } else {
        "RST_STREAM"
    }
}

pub fn certainty_name(certainty: Certainty) -> &'static str {
    match certainty {
        Certainty::Certain => "certain",
        Certainty::Settings => "settings",
        Certainty::Gap => "gap",
        Certainty::Clock => "clock",
        Certainty::Joined => "joined",
    }
}

pub(super) fn place_name(place: Place) -> &'static str {
    match place {
        Place::AtClient => "client",
        Place::AtServer => "server",
        Place::Between => "between",
    }
}

pub(super) fn source_name(source: Source) -> &'static str {
    match source {
        Source::Tcp => "tcp",
        Source::Http2 => "http2",
    }
}
