//! Says in words what held back a request, whom to ask, and which window would do.

use std::fmt::Write;

use explain::answer::{
    Cause, CauseKind, CauseWhy, ConnectionSaid, Files, Holder, How, JoinedSaid, Leak, Nanos, Request, StallSaid,
    StallWhy, WindowWaits, FIRST_CREDIT,
};
use reports::{grouped, Side};

use crate::joined::mark;
use crate::wording::{count, percent, put_count, put_percent, put_rate, put_time, rate_of, streams_named, time_of};

/// A second duration is told where it is longer than the first one by so much.
const MORE: Nanos = 1_000_000;
/// So many bytes most phrases take.
const USUAL: usize = 128;

/// The phrases of one connection's requests. Those that waited for the connection's window name each other.
pub struct Phrases<'a> {
    said: &'a ConnectionSaid,
    files: &'a Files,
    waits: WindowWaits<'a>,
    leaks: Vec<LeakSaid>,
}

struct LeakSaid {
    side: Side,
    begin: u32,
    text: String,
}

impl<'a> Phrases<'a> {
    /// The phrases of a connection whose requests each come by [`Phrases::meet`] first, and then [`Phrases::all_met`].
    pub fn new(said: &'a ConnectionSaid, files: &'a Files) -> Phrases<'a> {
        Phrases { said, files, waits: WindowWaits::new(said), leaks: Vec::new() }
    }

    pub fn meet(&mut self, request: &Request) {
        self.waits.meet(request);
    }

    pub fn all_met(&mut self) {
        let said = |(stall, leak): (&StallSaid, &Leak)| LeakSaid {
            side: stall.side,
            begin: stall.begin.frame,
            text: leak_words(stall, leak, &self.waits.without_content(stall)),
        };
        self.leaks = self.waits.leaks().map(said).collect();
    }

    /// What held back a request.
    pub fn of(&self, request: &Request) -> String {
        let mut text = String::with_capacity(USUAL);
        self.put(&mut text, request);
        text
    }

    /// Writes what held back a request behind a text.
    pub fn put(&self, text: &mut String, request: &Request) {
        let cause = &request.cause;
        match cause.kind {
            CauseKind::StreamWindow | CauseKind::ConnectionWindow => text.push_str(&self.of_window(request)),
            CauseKind::Tcp => {
                text.push_str("held by TCP for ");
                put_time(text, cause.nanos);
                text.push_str(" (");
                put_percent(text, cause.nanos, request.nanos());
                text.push_str("): ");
                text.push_str(&tcp_words(cause));
            }
            CauseKind::Application => {
                self.put_not_stalled(text, request);
                put_application(text, request);
            }
            CauseKind::Path => {
                self.put_not_stalled(text, request);
                put_path(text, request);
            }
            CauseKind::Unseen => {
                text.push_str("not known for ");
                put_time(text, cause.nanos);
                text.push_str(": behind a gap, or past the frame at which the audit stopped");
            }
            CauseKind::None => self.put_hardly(text, request),
        }
    }

    /// Says that no cause is named: it was not stalled at all, or for less than counts.
    fn put_hardly(&self, text: &mut String, request: &Request) {
        let nanos = request.stalled_by_both();
        if nanos == 0 {
            text.push_str(self.unstalled(request));
            return;
        }
        text.push_str("stalled ");
        put_time(text, nanos);
        text.push_str(" in all (");
        put_percent(text, nanos, request.nanos());
        text.push(')');
        let times = self.waits.times(request);
        if times > 0 {
            text.push_str(", ");
            put_count(text, times, "time");
        }
    }

    /// What is said of a request of which no stall is known.
    fn unstalled(&self, request: &Request) -> &'static str {
        let may_be_stalled = |joined: &JoinedSaid| joined.may_be_stalled(request);
        match self.said.joined.as_deref().map_or(false, may_be_stalled) {
            true => "no stall can be told",
            false => "not stalled",
        }
    }

    /// What stands before another cause where no window was stalled.
    fn put_not_stalled(&self, text: &mut String, request: &Request) {
        if request.stalled_by_both() == 0 {
            text.push_str(self.unstalled(request));
            text.push_str(": ");
        }
    }

    /// How long it was stalled, and why.
    fn of_window(&self, request: &Request) -> String {
        let cause = &request.cause;
        if cause.why == CauseWhy::Unshown {
            return self.unshown(cause);
        }
        let stalled = request.sides[cause.side as usize].stalled();
        let lasts = time_of(stalled);
        let mut text = if request.is_hung {
            format!("HUNG for {}, up to {}: ", time_of(request.hung_nanos), self.end_words(request))
        } else {
            format!("stalled {lasts} ({}): ", percent(stalled, request.nanos()))
        };
        text += &self.why(request);
        text += &self.whose(request);
        text += &hung_before(request);
        text += &mark(self.said, request).unwrap_or_default();
        text
    }

    /// Up to where a request hung.
    fn end_words(&self, request: &Request) -> String {
        let end = request.cause.last;
        if let Some(stop) = self.said.stopped_at.filter(|stop| end.map_or(false, |end| stop.time < end.time)) {
            return format!("the frame at which the audit stopped (packet {})", self.packet(stop.packet));
        }
        let (ended, packet) = (&request.ended, end.map_or(0, |at| self.packet(at.packet)));
        match ended.side.filter(|_| ended.how != How::Capture) {
            Some(side) => format!("the {side}'s {} (packet {packet})", how_name(ended.how)),
            None => format!("the capture's last packet of it ({packet})"),
        }
    }

    fn why(&self, request: &Request) -> String {
        let cause = &request.cause;
        let (ask, stalls) = (cause.side.other(), self.waits.of_cause(request));
        let longest = stalls.map_or(cause.nanos, |some| some.longest);
        let times = stalls.map_or(0, |some| some.count);
        match cause.why {
            CauseWhy::Stalls(StallWhy::CancelledStreams) => self.leak(cause),
            CauseWhy::Stalls(StallWhy::GrantedNothing) if request.is_hung => {
                format!("the {ask} granted nothing{}", whose(cause))
            }
            CauseWhy::Stalls(StallWhy::GrantedNothing) => {
                let reset = Some(request.ended).filter(|ended| ended.how == How::RstStream && !request.is_hung);
                let until =
                    reset.and_then(|ended| ended.side).map(|side| format!(" until the {side} reset the stream"));
                let (whose, until) = (whose(cause), until.unwrap_or_default());
                format!("the {ask} granted nothing{whose} for {}{until}", time_of(longest))
            }
            CauseWhy::Stalls(StallWhy::GrantLost) => format!("a grant of the {ask} was lost, and TCP sent it again"),
            CauseWhy::Stalls(StallWhy::GrantedLate) => {
                let often = if times > 1 { format!(", {}", count(times, "time")) } else { String::new() };
                format!("the {ask} granted late{often}: up to {} after it had the bytes", time_of(longest))
            }
            _ => self.of_round_trip(request, times),
        }
    }

    /// The window is below what a round trip carries, and which one would do.
    fn of_round_trip(&self, request: &Request, times: u64) -> String {
        let cause = &request.cause;
        let (ask, whose, bytes) = (cause.side.other(), whose(cause), count(cause.window, "byte"));
        let needed = match cause.needed {
            Some(needed) => needed,
            None => {
                let often = count(times, "time");
                return format!("the {ask}'s window{whose} of {bytes} was used up {often} and granted again at once");
            }
        };
        let (took, rate) = (time_of(self.round_trip()), rate_of(cause.window_rate(&self.said.round_trip)));
        let mut text = format!("the {ask} grants {bytes}{whose} a round trip of {took}, so {rate} at most");
        let direction = &request.sides[cause.side as usize];
        if needed > cause.window {
            let _ = write!(text, "; {} would do", grouped(needed));
            if let Some(rate) = direction.sending_rate() {
                let _ = write!(text, " for {}", rate_of(rate));
            }
        } else if i128::from(direction.content) > i128::from(cause.window) {
            let _ = write!(text, "; {} would hold all of it", grouped(direction.content));
        }
        text
    }

    /// Where bytes arrive no stall shows, though each window is used within a round trip.
    fn unshown(&self, cause: &Cause) -> String {
        let (ask, whose) = (cause.side.other(), whose(cause));
        format!(
            "no stall shows here, at the {ask}, but its window{whose} of {} is used up within a round trip of \
             {}, for {} in all: {} at most",
            count(cause.window, "byte"),
            time_of(self.round_trip()),
            time_of(cause.nanos),
            rate_of(cause.window_rate(&self.said.round_trip))
        )
    }

    /// The SETTINGS that made a stream's window what it is, or the streams that waited for the connection's.
    fn whose(&self, request: &Request) -> String {
        let cause = &request.cause;
        match (cause.kind, cause.why) {
            (CauseKind::ConnectionWindow, _) => self.of_connection(request),
            (CauseKind::StreamWindow, CauseWhy::Stalls(why)) if why != StallWhy::GrantLost => {
                self.initial_window(cause).unwrap_or_default()
            }
            _ => String::new(),
        }
    }

    /// Which stream holds the connection's window, which waited, and how long it was used up in all.
    fn of_connection(&self, request: &Request) -> String {
        let (cause, mut text) = (&request.cause, String::new());
        if let Some(Holder { stream, bytes, of, .. }) = self.waits.holder(cause).copied() {
            let much = match bytes == of {
                true => format!("all {}", count(of, "byte")),
                false => format!("{} of {}", grouped(bytes), count(of, "byte")),
            };
            let _ = write!(text, "; stream {stream} holds {much} of the connection's window");
        }
        if let Some(waited) = self.waits.waited_together(cause) {
            let _ = write!(text, "; {} waited", streams_named(&waited));
        }
        if let Some(stalls) = self.waits.of_cause(request).filter(|stalls| stalls.nanos >= cause.nanos + MORE) {
            let _ = write!(text, "; the connection's window was used up for {} in all", time_of(stalls.nanos));
        }
        text
    }

    fn initial_window(&self, cause: &Cause) -> Option<String> {
        let setting = self.said.settings.get(usize::try_from(cause.setting?).ok()?)?;
        if i64::from(setting.value) == FIRST_CREDIT {
            return None;
        }
        let (sent, answer) = (self.packet(setting.at.packet), self.packet(setting.acknowledged?.packet));
        Some(format!(
            " (initial window {} by its SETTINGS in packet {sent}, acknowledged in packet {answer})",
            grouped(setting.value)
        ))
    }

    /// The connection's credit went to streams that were cancelled, and was not given back.
    fn leak(&self, cause: &Cause) -> String {
        let frame = cause.first.map_or(0, |at| at.frame);
        let found = self.leaks.iter().find(|one| one.side == cause.side && one.begin >= frame);
        let text = found.map_or("the connection's credit was used by cancelled streams", |one| one.text.as_str());
        text.to_string()
    }

    fn round_trip(&self) -> Nanos {
        self.said.round_trip.nanos().unwrap_or(0)
    }

    /// The number of a packet in its file.
    fn packet(&self, packet: u64) -> u64 {
        self.files.place(packet).1
    }
}

/// The streams that were cancelled, and those that never had a byte in a stall that they made.
fn leak_words(stall: &StallSaid, leak: &Leak, without: &[u32]) -> String {
    let mut text = format!(
        "the connection's credit was used up: {} used by {} (cancelled), of which the {} gave back {}",
        grouped(leak.used),
        streams_named(&leak.streams),
        stall.side.other(),
        grouped(leak.granted)
    );
    if !without.is_empty() {
        let _ = write!(text, "; {} never had a byte", streams_named(without));
    }
    text
}

/// For how long a request that hung was stalled before.
fn hung_before(request: &Request) -> String {
    match request.stalled_before() {
        Some(before) if before >= MORE => format!("; it was stalled for {} before", time_of(before)),
        _ => String::new(),
    }
}

fn whose(cause: &Cause) -> &'static str {
    match cause.kind {
        CauseKind::ConnectionWindow => " on the connection",
        _ => "",
    }
}

fn tcp_words(cause: &Cause) -> String {
    let (side, other) = (cause.side, cause.side.other());
    match cause.why {
        CauseWhy::ZeroWindow => format!("the {other}'s TCP window was used up"),
        CauseWhy::Resent => format!("TCP sent bytes of the {side} again"),
        CauseWhy::Hole => format!("bytes of the {side} came out of order or again"),
        CauseWhy::Nagle => format!(
            "the {side} kept a small piece back until the {other} had acknowledged all before it (Nagle's algorithm: \
             TCP_NODELAY)"
        ),
        _ => format!("a frame of the {side} was begun, and its rest came slowly"),
    }
}

/// Tells of a side that sent nothing, and of its credit.
fn put_application(text: &mut String, request: &Request) {
    let cause = &request.cause;
    text.push_str("the ");
    text.push_str(cause.side.name());
    text.push_str(" sent nothing");
    text.push_str(if cause.is_silent { "" } else { " on this stream" });
    text.push_str(" for ");
    put_time(text, cause.nanos);
    match cause.credit {
        Some(credit) if credit > 0 => {
            text.push_str(" with ");
            put_count(text, credit, "byte");
            text.push_str(" of credit");
        }
        // What goes before content needs no credit.
        Some(_) if cause.why == CauseWhy::Before => text.push_str(", no headers either"),
        _ if cause.side == Side::Client && request.ended.how != How::EndStream => text.push_str(", and did not end it"),
        _ => {}
    }
}

/// Tells of a side that sent all the time, how much, and on how many streams.
fn put_path(text: &mut String, request: &Request) {
    let cause = &request.cause;
    text.push_str("the ");
    text.push_str(cause.side.name());
    text.push_str(" sent all the time: ");
    put_time(text, cause.nanos);
    text.push_str(" at ");
    put_rate(text, cause.path_rate());
    if cause.streams > 1 {
        text.push_str(", shared by ");
        put_count(text, cause.streams, "stream");
    }
}

pub fn how_name(how: How) -> &'static str {
    match how {
        How::EndStream => "END_STREAM",
        How::RstStream => "RST_STREAM",
        How::GoAway => "GOAWAY",
        How::Fin => "FIN",
        How::Rst => "RST",
        How::Capture => "capture",
    }
}
