//! The answer as events of Chrome's trace format, which <https://ui.perfetto.dev> shows: connections as processes,
//! requests as slices with their shares inside, credits of windows as counters, faults and signals as instants, both
//! legs of a proxy by arrows (`trace_legs`).
//! `companions/why/trace.schema.json` says what stands in it.
//!
//! Times are microseconds after the capture's first packet: since 1970 they would not fit the doubles of most readers.

use std::io::{self, Write};

use explain::answer::{Answer, At, Direction, FaultSaid, Files, Nanos, Request, Signal};
use reports::json::Json;
use reports::{sentence_of, Side};

use crate::asked::Shown;
use crate::document::{certainty_name, place, signal_word};
use crate::legs_said::legs_words;
use crate::summing::{SummedConnection, Whole};
use crate::text::name_of;
use crate::trace_legs::Arrows;
use crate::wording::code_name;

/// The shares of all requests together have so many slices at most, twice as many where one has few.
const MOST_SLICES: usize = 1 << 16;
/// The rows of a process: first that of the connection, and then three for each request.
const CONNECTION_ROW: usize = 0;
const ROWS_OF_REQUEST: usize = 3;

/// Writes the requests with most trouble, as a page shows them, and a line feed.
pub fn write(whole: &Whole<'_>, to: &mut dyn Write) -> io::Result<()> {
    let shown = Shown::of(whole.connections.iter().map(|one| one.said), &whole.answer.legs);
    let number: usize = shown.requests.iter().map(Vec::len).sum();
    let mut json = Json::new(to);
    json.open(b'{');
    json.name("displayTimeUnit").word("ns");
    json.name("otherData").object(|json| about(json, whole, number));
    json.name("traceEvents").open(b'[');
    let answer = whole.answer;
    let all = Trace { answer, files: &answer.files, begin: whole.summary.begin, most: most_spans(number) };
    for (one, requests) in whole.connections.iter().zip(&shown.requests).filter(|(one, _)| one.said.is_audited()) {
        all.connection(&mut json, one, requests)?;
    }
    Arrows { trace: &all, shown: &shown.requests }.write(&mut json)?;
    json.close(b']');
    json.close(b'}');
    json.line();
    json.finish()
}

fn about(json: &mut Json<'_>, whole: &Whole<'_>, shown: usize) {
    json.name("program").word(concat!("h2audit-why ", env!("CARGO_PKG_VERSION")));
    json.name("files").list(&whole.answer.files.names, |json, name| json.text(name));
    json.name("begin").text(&whole.summary.begin.to_string());
    json.name("summary").text(&whole.summary.text);
    json.name("requests").number(whole.summary.tally.requests);
    json.name("shown").number(shown);
}

/// So many spans a direction may have, where so many requests are shown.
fn most_spans(requests: usize) -> usize {
    (MOST_SLICES / requests.max(1)).max(2)
}

/// The rows of a request: what the server sent of it, the client's content, and whose its time was at a proxy.
pub fn rows_of(place: usize) -> [usize; ROWS_OF_REQUEST] {
    let first = 1 + ROWS_OF_REQUEST * place;
    [first, first + 1, first + 2]
}

/// What all events share.
pub struct Trace<'a> {
    pub answer: &'a Answer,
    files: &'a Files,
    begin: Nanos,
    pub most: usize,
}

/// The kinds of events, by the format's letters.
pub enum Phase {
    Metadata,
    Complete,
    Counter,
    Instant,
    /// An arrow's begin and its end.
    Start,
    Finish,
}

impl Trace<'_> {
    fn connection(&self, json: &mut Json<'_>, one: &SummedConnection<'_>, requests: &[usize]) -> io::Result<()> {
        let said = one.said;
        let number = said.number;
        let name = format!("connection {number}  {} -> {}", said.client, said.server);
        self.named(json, "process_name", (number, CONNECTION_ROW), &name);
        self.named(json, "thread_name", (number, CONNECTION_ROW), "the connection");
        said.faults.iter().for_each(|fault| self.fault(json, number, fault));
        said.signals.iter().for_each(|signal| self.signal(json, number, signal));
        json.give()?;
        self.windows(json, one)?;
        for (place, index) in requests.iter().enumerate() {
            if let Some(request) = said.requests.get(*index) {
                self.request(json, one, (*index, &request), rows_of(place));
                json.give()?;
            }
        }
        Ok(())
    }

    /// Writes a row for the request and what the server sent of it, one more if the client sent content, and one more
    /// if it is told whose the time was at a proxy.
    fn request(
        &self,
        json: &mut Json<'_>,
        one: &SummedConnection<'_>,
        (index, request): (usize, &Request),
        [row, content_row, whose_row]: [usize; ROWS_OF_REQUEST],
    ) {
        let number = one.said.number;
        let name = &name_of(request, one.said.joined.is_some());
        let row_name = format!("stream {}  {name}", request.stream);
        let legs = self.answer.legs.of(one.place, index);
        self.named(json, "thread_name", (number, row), &row_name);
        let whole = (request.opened.time, request.until);
        self.slice(json, (number, row), name, "request", whole, |json| {
            json.name("stream").number(request.stream);
            json.name("status").some_number(request.status);
            json.name("said").text(&one.phrases.of(request));
            let lines = legs.map(|legs| legs_words(request, legs, (one.place, index), self.answer));
            json.name("legs").some(lines, |json, lines| json.list(&lines, |json, line| json.text(line)));
            place(json.name("at"), Some(request.opened), self.files);
        });
        self.shares(json, (number, row), &request.sides[Side::Server as usize]);
        let client = &request.sides[Side::Client as usize];
        if client.content > 0 {
            self.named(json, "thread_name", (number, content_row), &format!("{row_name}: the client's content"));
            let whole = (request.opened.time, request.opened.time.saturating_add(client.nanos));
            self.slice(json, (number, content_row), "the client's content", "request", whole, |json| {
                json.name("content").number(client.content);
            });
            self.shares(json, (number, content_row), client);
        }
        if let Some(parts) = legs.and_then(|legs| legs.parts.as_deref()) {
            self.named(json, "thread_name", (number, whose_row), &format!("{row_name}: whose it was"));
            self.parts(json, (number, whose_row), parts);
        }
    }

    /// What each instant of a direction's life was, one slice after the other; none where that was not kept.
    fn shares(&self, json: &mut Json<'_>, row: (u64, usize), direction: &Direction) {
        let spans = direction.spans.as_deref().unwrap_or_default();
        let stretches: Vec<_> = spans.iter().map(|span| (span.begin, span.end, span.share)).collect();
        for (begin, end, share) in joined(&stretches, self.most) {
            self.slice(json, row, share.name(), "share", (begin, end), |_| {});
        }
    }

    fn windows(&self, json: &mut Json<'_>, one: &SummedConnection<'_>) -> io::Result<()> {
        for window in &one.said.charts.windows {
            let side = window.side.name();
            let name = match window.stream {
                0 => format!("{side}'s credit on the connection"),
                stream => format!("{side}'s credit on stream {stream}"),
            };
            for point in &window.points {
                self.event(json, Phase::Counter, (one.said.number, CONNECTION_ROW), &name, point.time, |json| {
                    json.name("args").object(|json| json.name("bytes").number(point.credit));
                });
            }
            json.give()?;
        }
        Ok(())
    }

    fn fault(&self, json: &mut Json<'_>, number: u64, fault: &FaultSaid) {
        self.instant(json, number, fault.finding.kind.name(), "fault", fault.at, |json| {
            json.name("stream").number(fault.finding.stream);
            json.name("broke").some_word(fault.finding.who_broke_it().map(Side::name));
            json.name("certainty").word(certainty_name(fault.certainty));
            json.name("said").text(&sentence_of(&fault.finding, ""));
        });
    }

    fn signal(&self, json: &mut Json<'_>, number: u64, signal: &Signal) {
        self.instant(json, number, signal_word(signal), "signal", signal.at, |json| {
            json.name("side").word(signal.side.name());
            json.name("code").text(&code_name(signal.code));
            json.name("stream").number(signal.stream);
        });
    }

    fn instant<'a>(
        &self,
        json: &mut Json<'a>,
        number: u64,
        name: &str,
        kind: &'static str,
        at: At,
        members: impl FnOnce(&mut Json<'a>),
    ) {
        self.event(json, Phase::Instant, (number, CONNECTION_ROW), name, at.time, |json| {
            json.name("s").word("p");
            json.name("cat").word(kind);
            json.name("args").object(|json| {
                members(json);
                place(json.name("at"), Some(at), self.files);
            });
        });
    }

    pub fn slice<'a>(
        &self,
        json: &mut Json<'a>,
        row: (u64, usize),
        name: &str,
        kind: &'static str,
        (begin, end): (Nanos, Nanos),
        members: impl FnOnce(&mut Json<'a>),
    ) {
        self.event(json, Phase::Complete, row, name, begin, |json| {
            json.name("dur").thousandths(end.saturating_sub(begin).max(0));
            json.name("cat").word(kind);
            json.name("args").object(members);
        });
    }

    pub fn event<'a>(
        &self,
        json: &mut Json<'a>,
        phase: Phase,
        (process, row): (u64, usize),
        name: &str,
        time: Nanos,
        members: impl FnOnce(&mut Json<'a>),
    ) {
        json.object(|json| {
            json.name("ph").word(phase.letter());
            json.name("pid").number(process);
            json.name("tid").number(row);
            json.name("name").text(name);
            json.name("ts").thousandths(time.saturating_sub(self.begin));
            members(json);
        });
    }

    fn named(&self, json: &mut Json<'_>, what: &str, row: (u64, usize), name: &str) {
        self.event(json, Phase::Metadata, row, what, self.begin, |json| {
            json.name("args").object(|json| json.name("name").text(name));
        });
    }
}

impl Phase {
    fn letter(self) -> &'static str {
        match self {
            Phase::Metadata => "M",
            Phase::Complete => "X",
            Phase::Counter => "C",
            Phase::Instant => "i",
            Phase::Start => "s",
            Phase::Finish => "f",
        }
    }
}

/// At most so many stretches, each with its begin and its end: of several that one which takes the most of them.
pub fn joined<T: Copy>(all: &[(Nanos, Nanos, T)], most: usize) -> impl Iterator<Item = (Nanos, Nanos, T)> + '_ {
    let length = (all.len() + most - 1) / most;
    all.chunks(length.max(1)).filter_map(|some| {
        let longest = some.iter().max_by_key(|one| one.1 - one.0)?;
        Some((some.first()?.0, some.last()?.1, longest.2))
    })
}

#[cfg(test)]
mod tests {
    use super::{joined, most_spans};

    #[test]
    fn stretches_are_joined() {
        let all = [(0, 1, "waiting"), (1, 9, "tcp"), (9, 12, "sending")];
        let at_most = |most| joined(&all, most).collect::<Vec<_>>();
        assert_eq!(at_most(3).len(), 3);
        assert_eq!(at_most(2), [(0, 9, "tcp"), (9, 12, "sending")]);
        assert_eq!(at_most(1), [(0, 12, "tcp")]);
        assert_eq!(joined::<()>(&[], 4).count(), 0);
        assert_eq!((most_spans(1), most_spans(1024), most_spans(1 << 20)), (1 << 16, 64, 2));
    }
}
