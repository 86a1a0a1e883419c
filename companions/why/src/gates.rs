//! What fails a run in CI: the reasons that a command line may name, and what holds of each in an answer.

use explain::answer::{is_pushed, Answer, At, CauseKind, Certainty, ConnectionSaid, Files, How, Nanos, Request};
use explain::words::reason_words;
use reports::{grouped, Side};

use crate::document::signal_word;
use crate::faults::told;
use crate::legs_said::request_words;
use crate::summing::{is_held, SummedConnection, Whole};
use crate::wording::{code_name, escaped, grpc_name, time_of};

/// Why a run fails.
#[derive(Clone, Copy, Debug, PartialEq, Eq)]
pub enum Reason {
    Fault,
    CertainFault,
    /// A fault that rests on what is inferred.
    JoinedFault,
    Stall,
    Hung,
    Tcp,
    Error,
    Unanswered,
    Status,
    Gap,
    Cut,
    NotAudited,
    /// A request stood behind another one at a proxy.
    Behind,
    /// A proxy passed on that a client or an upstream did not read.
    PassedOn,
    /// Windows held a request back for as long as an option of its own says.
    LongStall,
    /// A request lived for as long as an option of its own says.
    LongLife,
    /// Nothing was audited, and an option of its own asks for more.
    NoHttp2,
}

impl Reason {
    /// The reasons that `--fail-on` takes.
    pub const NAMED: [Reason; 14] = [
        Reason::Fault,
        Reason::CertainFault,
        Reason::JoinedFault,
        Reason::Stall,
        Reason::Hung,
        Reason::Tcp,
        Reason::Error,
        Reason::Unanswered,
        Reason::Status,
        Reason::Gap,
        Reason::Cut,
        Reason::NotAudited,
        Reason::Behind,
        Reason::PassedOn,
    ];

    /// Whether it is about both legs of a proxy.
    pub fn is_of_legs(self) -> bool {
        matches!(self, Reason::Behind | Reason::PassedOn)
    }

    pub fn name(self) -> &'static str {
        match self {
            Reason::Fault => "fault",
            Reason::CertainFault => "certain-fault",
            Reason::JoinedFault => "joined-fault",
            Reason::Stall => "stall",
            Reason::Hung => "hung",
            Reason::Tcp => "tcp",
            Reason::Error => "error",
            Reason::Unanswered => "unanswered",
            Reason::Status => "status",
            Reason::Gap => "gap",
            Reason::Cut => "cut",
            Reason::NotAudited => "not-audited",
            Reason::Behind => "behind",
            Reason::PassedOn => "passed-on",
            Reason::LongStall => "fail-stall",
            Reason::LongLife => "fail-life",
            Reason::NoHttp2 => "require-http2",
        }
    }
}

const OF_REQUESTS: [Reason; 9] = [
    Reason::Hung,
    Reason::Stall,
    Reason::Tcp,
    Reason::Unanswered,
    Reason::Status,
    Reason::Behind,
    Reason::PassedOn,
    Reason::LongStall,
    Reason::LongLife,
];
/// From here on a status is no informational one, and a failure of the server (RFC 9110, 15).
const FIRST_FINAL: u32 = 200;
const SERVER_ERROR: u32 = 500;

/// What the command line wants to fail on.
#[derive(Clone, Debug, Default)]
pub struct Gates {
    pub reasons: Vec<Reason>,
    pub stall: Option<Nanos>,
    pub life: Option<Nanos>,
    pub needs_http2: bool,
}

/// A connection, and a stream of it. Connection 0 is the capture.
pub type Place = (u64, Option<u32>);

/// One thing that fails a run: of a request, of a connection, or of the capture.
#[derive(Clone, Debug, PartialEq, Eq)]
pub struct Failure {
    pub reason: Reason,
    pub text: String,
    pub place: Place,
}

impl Gates {
    fn is_wanted(&self, reason: Reason) -> bool {
        match reason {
            Reason::LongStall => self.stall.is_some(),
            Reason::LongLife => self.life.is_some(),
            Reason::NoHttp2 => self.needs_http2,
            named => self.reasons.contains(&named),
        }
    }

    fn wants_requests(&self) -> bool {
        OF_REQUESTS.into_iter().any(|one| self.is_wanted(one))
    }
}

/// All that fails the run: the capture's first, then by connections.
pub fn failures_of(whole: &Whole<'_>, gates: &Gates) -> Vec<Failure> {
    let mut finding = Finding { gates, answer: whole.answer, files: &whole.answer.files, found: Vec::new() };
    finding.of_capture(whole);
    for one in &whole.connections {
        finding.of_connection(one.said);
        if gates.wants_requests() {
            for (place, request) in one.said.requests.iter().enumerate() {
                finding.of_request(one, &request);
                finding.of_legs(one, place, &request);
            }
        }
    }
    finding.found
}

struct Finding<'a> {
    gates: &'a Gates,
    answer: &'a Answer,
    files: &'a Files,
    found: Vec<Failure>,
}

impl Finding<'_> {
    fn add(&mut self, reason: Reason, place: Place, text: impl FnOnce() -> String) {
        if self.gates.is_wanted(reason) {
            self.found.push(Failure { reason, text: text(), place });
        }
    }

    /// The number of a packet in its file.
    fn packet(&self, at: At) -> u64 {
        self.files.place(at.packet).1
    }

    fn of_capture(&mut self, whole: &Whole<'_>) {
        let nothing = || "nothing was audited".to_string();
        if whole.summary.audited == 0 {
            self.add(Reason::NoHttp2, (0, None), nothing);
            self.add(Reason::NotAudited, (0, None), nothing);
        }
        for (file, packet) in &whole.answer.cuts {
            let name = escaped(self.files.name(*file)).into_owned();
            self.add(Reason::Cut, (0, None), || format!("{name} ends within packet {packet}"));
        }
        let connections = &whole.answer.connections;
        for said in &whole.answer.not_audited {
            // What was not audited of connections is told with these.
            if !connections.iter().any(|one| !one.is_audited() && why_not_audited(one) == said.reason) {
                self.add(Reason::NotAudited, (0, None), || said.text.clone());
            }
        }
    }

    fn of_connection(&mut self, one: &ConnectionSaid) {
        let place = (one.number, None);
        if !one.is_audited() {
            self.add(Reason::NotAudited, place, || not_audited_words(one));
        }
        for told in told(one) {
            let (fault, packet) = (told.fault, format!("packet {}", self.packet(told.fault.at)));
            let doubt = if fault.is_doubtful() { format!("; doubtful: {}", fault.doubt) } else { String::new() };
            let text = told.sentence(&packet) + &doubt;
            let is_joined = fault.certainty == Certainty::Joined;
            self.add(if is_joined { Reason::JoinedFault } else { Reason::Fault }, place, || text.clone());
            if !fault.is_doubtful() {
                self.add(Reason::CertainFault, place, || text);
            }
        }
        for said in one.signals.iter().filter(|said| said.code != 0) {
            let stream = if said.is_goaway { String::new() } else { format!(" on stream {}", said.stream) };
            let (word, code, packet) = (signal_word(said), code_name(said.code), self.packet(said.at));
            self.add(Reason::Error, place, || format!("the {} sent {word} {code}{stream}; packet {packet}", said.side));
        }
        for (side, offset) in &one.gaps {
            let offset = grouped(*offset);
            self.add(Reason::Gap, place, || format!("bytes of the {side} are missing from offset {offset} on"));
        }
        if let Some(at) = one.stopped_at {
            let packet = self.packet(at);
            self.add(Reason::NotAudited, place, || format!("the audit stopped at frame {}, packet {packet}", at.frame));
        }
    }

    /// Whether it was answered, by which status, and in what time.
    fn of_answer(&mut self, place: Place, request: &Request) {
        let name = || name_of(request);
        if is_unanswered(request) {
            self.add(Reason::Unanswered, place, || format!("{}: no answer", name()));
        }
        if let Some(status) = request.status.filter(|status| *status >= SERVER_ERROR) {
            self.add(Reason::Status, place, || format!("{}: status {status}", name()));
        }
        if let Some(code) = request.grpc_status.filter(|code| *code > 0) {
            self.add(Reason::Status, place, || format!("{}: grpc-status {code} {}", name(), grpc_name(code)));
        }
        let nanos = request.nanos();
        if let Some(longest) = self.gates.life.filter(|longest| nanos >= *longest) {
            let (life, longest) = (time_of(nanos), time_of(longest));
            self.add(Reason::LongLife, place, || format!("{}: lived for {life}: {longest} fail", name()));
        }
    }

    /// Whether it stood behind another one at a proxy, and whether that passed on what held it back.
    fn of_legs(&mut self, one: &SummedConnection<'_>, at: usize, request: &Request) {
        let (place, of) = ((one.said.number, Some(request.stream)), (one.place, at));
        let legs = match self.answer.legs.of(of.0, of.1) {
            Some(legs) => legs,
            None => return,
        };
        let text = || format!("{}: {}", name_of(request), request_words(request, legs, of, self.answer).join("; "));
        let (is_behind, is_passed_on) = (legs.is_behind(), legs.is_passed_on());
        let said = [(Reason::Behind, is_behind), (Reason::PassedOn, is_passed_on)];
        let wanted: Vec<_> = said.into_iter().filter(|one| one.1 && self.gates.is_wanted(one.0)).collect();
        let texts: Vec<String> = wanted.iter().map(|_| text()).collect();
        wanted.into_iter().zip(texts).for_each(|((reason, _), text)| self.add(reason, place, || text));
    }

    fn of_request(&mut self, one: &SummedConnection<'_>, request: &Request) {
        let place = (one.said.number, Some(request.stream));
        let text = || format!("{}: {}", name_of(request), one.phrases.of(request));
        if request.is_hung {
            self.add(Reason::Hung, place, text);
        }
        if is_held(request) {
            self.add(Reason::Stall, place, text);
        }
        if request.cause.kind == CauseKind::Tcp {
            self.add(Reason::Tcp, place, text);
        }
        self.of_answer(place, request);
        let nanos = request.stalled();
        if let Some(longest) = self.gates.stall.filter(|longest| nanos > 0 && nanos >= *longest) {
            let (name, longest) = (name_of(request), time_of(longest));
            let text = || format!("{name}: stalled for {}: {longest} fail", time_of(nanos));
            self.add(Reason::LongStall, place, text);
        }
    }
}

/// Whether the server sent no answer to a request, or informational ones alone, as far as its end was captured. A
/// promise that the client gave back has none.
pub fn is_unanswered(request: &Request) -> bool {
    let (answer, ended) = (&request.sides[Side::Server as usize], &request.ended);
    let is_informational = answer.content == 0 && request.status.map_or(false, |status| status < FIRST_FINAL);
    let is_refused = is_pushed(request.stream) && ended.how == How::RstStream && ended.side == Some(Side::Client);
    (answer.first.is_none() || is_informational) && !request.is_end_unseen && !is_refused
}

/// Why a connection was not audited.
pub fn why_not_audited(one: &ConnectionSaid) -> &str {
    match one.reason.as_str() {
        "" => one.outcome.name(),
        reason => reason,
    }
}

/// The reason, and what it means.
pub fn not_audited_words(one: &ConnectionSaid) -> String {
    let why = why_not_audited(one);
    format!("not audited ({why}): {}", reason_words(why, "a connection"))
}

fn name_of(request: &Request) -> String {
    match request.name.as_deref() {
        None | Some("") => format!("stream {}", request.stream),
        Some(name) => format!("stream {} {}", request.stream, escaped(name)),
    }
}

/// One line for each reason that holds: how often, and where first.
pub fn lines_of(failures: &[Failure]) -> Vec<String> {
    let mut firsts: Vec<(&Failure, u64)> = Vec::new();
    for one in failures {
        match firsts.iter_mut().find(|(first, _)| first.reason == one.reason) {
            Some((_, times)) => *times += 1,
            None => firsts.push((one, 1)),
        }
    }
    firsts.into_iter().map(|(first, times)| line_of(first, times)).collect()
}

fn line_of(first: &Failure, times: u64) -> String {
    let place = match first.place.0 {
        0 => String::new(),
        number => format!("connection {number}: "),
    };
    let more = match times - 1 {
        0 => String::new(),
        1 => format!("; and {} more of it", grouped(1_u64)),
        more => format!("; and {} more of them", grouped(more)),
    };
    format!("failed: {}: {place}{}{more}", first.reason.name(), first.text)
}
