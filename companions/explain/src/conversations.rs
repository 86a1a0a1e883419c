//! Small conversations, walked over as captures are.

use std::rc::Rc;

use captures::{flags, Arrival};
use import::{CLIENT, SERVER};
use programs::Failure;

use crate::answer::{
    At, CauseKind, CauseWhy, ConnectionSaid, How, Nanos, Request, Requests, Share, StallEnd, StallSums, StallWhy,
    WindowWaits,
};
use crate::audit::{read_audits, Audit};
use crate::blocks::Names;
use crate::building::place_early;
use crate::connection::WalkedConnection;
use crate::cutter::{flag, kind, PREFACE};
use crate::frame_log::{Came, FrameLog, Logged, Payload};
use crate::learning::{Known, Learned};
use crate::names::Interner;
use crate::telling::unsaid;
use crate::walk::Asking;
use cutter::Numbers;

const MS: Nanos = 1_000_000;
const GET: &[u8] = b"\x82\x44\x04/a?b\x41\x01h";
const OK: &[u8] = b"\x88";

pub fn frame(kind: u8, flags: u8, stream: u32, payload: &[u8]) -> Vec<u8> {
    let length = (payload.len() as u32).to_be_bytes();
    [&length[1..], &[kind, flags], &stream.to_be_bytes(), payload].concat()
}

fn headers(stream: u32, more: u8, block: &[u8]) -> Vec<u8> {
    frame(kind::HEADERS, flag::END_HEADERS | more, stream, block)
}

fn data(stream: u32, more: u8, length: usize) -> Vec<u8> {
    frame(kind::DATA, more, stream, &vec![0; length])
}

/// Records of a connection: side, time in milliseconds, payload. Each has a packet of its number; a handshake took 3.
struct Talk {
    records: Vec<(usize, Nanos, Vec<u8>)>,
    has_names: bool,
    /// The time from the place of capture to the client and back.
    way: Nanos,
    /// Whether the server's SYN ACK was captured behind all of them.
    is_late: bool,
}

impl Talk {
    /// Both sides have begun.
    fn new() -> Talk {
        let mut talk = Talk { records: Vec::new(), has_names: true, way: 0, is_late: false };
        talk.say(CLIENT, 10, &[PREFACE.to_vec(), frame(kind::SETTINGS, 0, 0, &[])]);
        talk.say(SERVER, 10, &[frame(kind::SETTINGS, 0, 0, &[])]);
        talk
    }

    fn say(&mut self, side: usize, millis: Nanos, frames: &[Vec<u8>]) {
        self.records.push((side, millis * MS, frames.concat()));
    }

    /// What the first walk learns, and the frames that it leaves.
    fn known(&self) -> (Known, FrameLog) {
        let opened = At { packet: 1, time: 0, frame: 0 };
        let (mut learned, mut log) = (Box::new(Learned::new(1, opened, 0)), FrameLog::new().expect("a file"));
        let syn_ack = |learned: &mut Learned, time: Nanos| {
            learned.met(2, At { packet: 2, time, frame: 0 }, SERVER, (0, flags::SYN | flags::ACK));
        };
        if !self.is_late {
            syn_ack(&mut learned, 0);
        }
        let mut sent = [1, 1];
        for ((side, time, octets), record) in self.records.iter().zip(4..) {
            let at = At { packet: record, time: *time, frame: 0 };
            let came = Came { record, at, connection: 0, side: *side };
            let payload = Payload { sequence: sent[*side], flags: flags::ACK, octets };
            learned.met(record, at, *side, (payload.sequence, payload.flags));
            learned.take(&came, &payload, &mut log).expect("room");
            sent[*side] += octets.len() as u32;
        }
        if self.is_late {
            syn_ack(&mut learned, self.records.last().map_or(0, |record| record.1));
        }
        let mut all = [Some(learned)];
        place_early(&mut all, &mut log).expect("room");
        let [learned] = all;
        (learned.expect("a connection").known(), log)
    }

    /// What is said of it beside these lines of a report.
    fn told(&self, report: &[&str]) -> Result<ConnectionSaid, Failure> {
        let (known, mut log) = self.known();
        let audit = self.audit(known.frames, report);
        let last = self.records.last().map_or(0, |record| record.1);
        let mut course = course(last + 5 * MS, self.way);
        let mut asking = Asking {
            names: Names { are_wanted: self.has_names, has_query: false },
            has_spans: true,
            has_legs: false,
            has_frames: false,
            charts: None,
            interner: Interner::default(),
            numbers: Numbers::new(),
            live: Rc::default(),
        };
        let mut said = unsaid(1, String::new(), String::new(), known.opened);
        let mut connection = WalkedConnection::new(Box::new(known), audit, &mut course, None, &asking)?;
        let mut reader = log.reader().expect("a file");
        while let Some(entry) = reader.next().expect("an entry") {
            if let Logged::Frames(frames) = &entry.found {
                connection.take(&mut asking, &entry.came, frames)?;
                connection.park();
            }
        }
        said.requests = Requests::of(connection.end(&mut said)?);
        said.requests.with_texts(&Rc::new(asking.interner.into_texts()));
        Ok(said)
    }

    fn audit(&self, frames: u32, report: &[&str]) -> Audit {
        let front =
            "capture records 9 segments 9 snapped 0 not-ipv4 0 fragments 0 not-tcp 0 refused 0\nconnection 1 client \
                     10.0.0.1:1 server 10.0.0.2:2 record 1";
        let text = format!(
            "{front} http2 frames {frames}\n{}",
            report.iter().map(|line| format!("{line}\n")).collect::<String>()
        );
        let read = read_audits(text.as_bytes(), &import::RecordsOf::same(), |error| Failure::Io(error.to_string()));
        read.ok().and_then(|mut audits| audits.pop()).map(|audit| *audit).expect("a report")
    }

    fn requests(&self, report: &[&str]) -> Vec<Request> {
        self.told(report).expect("an answer").requests.iter().collect()
    }
}

/// TCP began at 0 with such a way to the client, and ended with a FIN of the server.
fn course(end: Nanos, way: Nanos) -> import::TcpCourse {
    let at = |packet, nanos| Arrival { packet, nanos };
    let mut sides: [import::Side; 2] = Default::default();
    sides[SERVER].fin = Some(at(90, end));
    sides[SERVER].last = Some(at(90, end));
    let (syn_ack, ack) = (Some(at(2, 0)), Some(at(3, 0)));
    let ways = [Some(way), Some(0)];
    import::TcpCourse { syn: at(1, 0), syn_ack, ack, sides, ways, held: Vec::new(), again: Vec::new() }
}

fn shares(request: &Request, side: usize) -> Vec<(&'static str, Nanos)> {
    let said = &request.sides[side];
    assert_eq!(said.shares.iter().sum::<Nanos>(), said.nanos);
    let all = Share::ALL.iter().zip(said.shares).filter(|share| share.1 != 0);
    all.map(|(share, nanos)| (share.name(), nanos / MS)).collect()
}

#[test]
fn bytes_before_their_initial_number() {
    let mut talk = Talk::new();
    talk.say(CLIENT, 20, &[headers(1, flag::END_STREAM, GET)]);
    let answer = [headers(1, 0, OK), data(1, flag::END_STREAM, 100)].concat();
    talk.say(SERVER, 50, &[answer[..20].to_vec()]);
    talk.say(SERVER, 60, &[answer[20..].to_vec()]);
    let requests = talk.requests(&[]);
    assert_eq!((requests.len(), requests[0].status, requests[0].sides[SERVER].content), (1, Some(200), 100));
    talk.is_late = true;
    assert_eq!(talk.requests(&[]), requests);
}

#[test]
fn a_request_and_what_answered_it() {
    let mut talk = Talk::new();
    talk.say(CLIENT, 20, &[headers(1, flag::END_STREAM, GET)]);
    talk.say(SERVER, 50, &[headers(1, 0, OK), data(1, 0, 100)]);
    talk.say(SERVER, 150, &[data(1, flag::END_STREAM, 20)]);
    let requests = talk.requests(&[]);
    let one = &requests[0];
    assert_eq!((one.name.as_deref(), one.authority.as_deref(), one.status), (Some("GET /a"), Some("h"), Some(200)));
    assert_eq!((one.opened.packet, one.opened.frame, one.nanos()), (6, 3, 130 * MS));
    assert_eq!((one.ended.how, one.sides[SERVER].content), (How::EndStream, 120));
    assert_eq!(shares(one, CLIENT), []);
    assert_eq!(shares(one, SERVER), [("waiting", 30), ("idle", 100)]);
    let (first, last) = (one.cause.first.map(|at| at.frame), one.cause.last.map(|at| at.frame));
    assert_eq!(
        (one.cause.kind, one.cause.why, first, last),
        (CauseKind::Application, CauseWhy::Between, Some(5), Some(6))
    );
    assert_eq!(one.cause.credit, Some(65_435));
}

#[test]
fn frames_behind_a_reset() {
    let mut talk = Talk::new();
    talk.say(CLIENT, 20, &[headers(1, flag::END_STREAM, GET)]);
    talk.say(CLIENT, 60, &[frame(kind::RST_STREAM, 0, 1, &[0, 0, 0, 8])]);
    talk.say(SERVER, 70, &[headers(1, 0, OK), data(1, flag::END_STREAM, 100)]);
    let one = &talk.requests(&[])[0];
    assert_eq!((one.ended.how, one.ended.code, one.nanos()), (How::RstStream, Some(8), 40 * MS));
    assert_eq!((one.status, one.sides[SERVER].content), (Some(200), 100));
    assert_eq!(one.sides[SERVER].first.map(|at| at.frame), Some(5));
    assert_eq!(shares(one, SERVER), [("waiting", 40)]);
    assert_eq!((one.cause.why, one.cause.nanos), (CauseWhy::Before, 40 * MS));
}

#[test]
fn a_frame_that_a_reset_meets_half_way() {
    let mut talk = Talk::new();
    talk.say(CLIENT, 20, &[headers(1, flag::END_STREAM, GET)]);
    let whole = data(1, 0, 100);
    talk.say(SERVER, 30, &[headers(1, 0, OK), whole[..50].to_vec()]);
    talk.say(CLIENT, 60, &[frame(kind::RST_STREAM, 0, 1, &[0, 0, 0, 8])]);
    talk.say(SERVER, 70, &[whole[50..].to_vec()]);
    let one = &talk.requests(&[])[0];
    assert_eq!(shares(one, SERVER), [("waiting", 10), ("tcp", 30)]);
    assert_eq!((one.cause.kind, one.cause.why), (CauseKind::Tcp, CauseWhy::WithinFrame));
    talk.records.pop();
    let one = &talk.requests(&[])[0];
    assert_eq!(shares(one, SERVER), [("waiting", 10), ("tcp", 30)], "its rest never came");
}

#[test]
fn what_cannot_be_read_opens_no_stream() {
    let mut talk = Talk::new();
    talk.say(CLIENT, 20, &[frame(kind::HEADERS, flag::END_HEADERS | flag::PADDED, 1, &[9, 0x82])]);
    talk.say(CLIENT, 20, &[frame(kind::HEADERS, flag::END_HEADERS | flag::PRIORITY, 3, &[0; 4])]);
    talk.say(CLIENT, 30, &[headers(5, 0, GET), frame(kind::DATA, flag::PADDED | flag::END_STREAM, 5, &[])]);
    let requests = talk.requests(&[]);
    assert_eq!(requests.len(), 1);
    let one = &requests[0];
    assert_eq!((one.stream, one.sides[CLIENT].content, one.ended.how), (5, 0, How::Fin));
}

#[test]
fn promises_and_refusals() {
    promised_and_refused(0, How::Fin);
    promised_and_refused(2, How::GoAway);
}

/// Tells how a stream ends that is not above the last one of a GOAWAY with this code.
fn promised_and_refused(code: u8, end: How) {
    let mut talk = Talk::new();
    talk.say(CLIENT, 20, &[headers(1, flag::END_STREAM, GET), headers(3, 0, GET)]);
    let promise = [&[0, 0, 0, 2][..], GET].concat();
    talk.say(SERVER, 30, &[frame(kind::PUSH_PROMISE, flag::END_HEADERS, 1, &promise)]);
    talk.say(SERVER, 40, &[headers(2, flag::END_STREAM, OK), frame(kind::GOAWAY, 0, 0, &[0, 0, 0, 1, 0, 0, 0, code])]);
    let said = talk.told(&[]).expect("an answer");
    let requests: Vec<Request> = said.requests.iter().collect();
    let pushed = &requests[2];
    assert_eq!((pushed.stream, pushed.promised_on, pushed.name.as_deref()), (2, 1, Some("GET /a")));
    assert_eq!((pushed.sides[CLIENT].nanos, pushed.sides[SERVER].nanos), (0, 10 * MS));
    let ends: Vec<How> = requests.iter().map(|request| request.ended.how).collect();
    assert_eq!(ends, [end, How::GoAway, How::EndStream]);
    let error = Some(u32::from(code)).filter(|code| *code > 0);
    assert_eq!((said.ended.how, said.ended.code, said.closing.how), (end, error, How::Fin));
}

const STALL: [&str; 2] = [
    "frame 5 record 7 time 30000000 server stream-stall-begin stream 1 value 0",
    "frame 6 record 8 time 90000000 server stream-stall-end stream 1 value 1000",
];

fn stalled() -> Talk {
    let mut talk = Talk::new();
    talk.say(CLIENT, 20, &[headers(1, flag::END_STREAM, GET)]);
    talk.say(SERVER, 30, &[headers(1, 0, OK), data(1, 0, 65_535)]);
    talk.say(CLIENT, 90, &[frame(kind::WINDOW_UPDATE, 0, 1, &[0, 0, 3, 232])]);
    talk.say(SERVER, 100, &[data(1, flag::END_STREAM, 0)]);
    talk
}

#[test]
fn a_stall_is_a_cause() {
    let said = stalled().told(&STALL).expect("an answer");
    let stall = &said.stalls[0];
    assert_eq!((stall.begin.packet, stall.end.map(|end| end.packet)), (7, Some(8)));
    assert_eq!((stall.ended_by, stall.why, stall.late), (Some(StallEnd::Grant), StallWhy::GrantedLate, 60 * MS));
    let one = said.requests.get(0).expect("a request");
    assert_eq!(shares(&one, SERVER), [("waiting", 10), ("stream_stall", 60), ("idle", 10)]);
    let cause = &one.cause;
    assert_eq!((cause.kind, cause.why), (CauseKind::StreamWindow, CauseWhy::Stalls(StallWhy::GrantedLate)));
    assert_eq!((cause.nanos, cause.window, cause.is_proved, one.is_hung), (60 * MS, 65_535, true, false));
}

#[test]
fn a_window_below_a_round_trip() {
    let mut talk = stalled();
    talk.way = 60 * MS;
    talk.records[5] = (SERVER, 100 * MS, data(1, flag::END_STREAM, 1000));
    let said = talk.told(&STALL).expect("an answer");
    let (request, round_trip) = (said.requests.get(0).expect("a request"), &said.round_trip);
    let (cause, sent) = (&request.cause, &request.sides[SERVER]);
    assert_eq!((cause.why, cause.needed), (CauseWhy::Stalls(StallWhy::RoundTrip), Some(66_535)));
    assert_eq!((cause.window_rate(round_trip), sent.sending_rate()), (1_092_250, Some(6_653_500)));
    assert_eq!([request.stalled(), request.stalled_by_both(), sent.stalled()], [60 * MS; 3]);
    let waits = WindowWaits::new(&said);
    assert_eq!(waits.of_cause(&request), Some(&StallSums { count: 1, longest: 60 * MS, nanos: 60 * MS }));
    assert_eq!(waits.times(&request), 1);
    talk.way = 0;
    assert_eq!(talk.requests(&STALL)[0].cause.needed, None, "both ends are too near to tell");
}

#[test]
fn a_stall_without_an_end_hangs() {
    let mut talk = stalled();
    talk.records.truncate(4);
    let one = &talk.requests(&STALL[..1])[0];
    assert_eq!((one.is_hung, one.ended.how), (true, How::Fin));
    assert_eq!((one.stalled_before(), one.cause.needed), (Some(0), None));
    assert_eq!(shares(one, SERVER), [("waiting", 10), ("stream_stall", 5)]);
}

#[test]
fn nothing_is_said_beside_another_report() {
    let is_refused = |report: &[&str]| stalled().told(report).is_err();
    assert!(!is_refused(&STALL));
    for (from, to) in
        [("value 1000", "value 999"), ("record 8", "record 9"), ("frame 6", "frame 7"), ("time 9", "time 8")]
    {
        assert!(is_refused(&[STALL[0], &STALL[1].replace(from, to)]), "{to}");
    }
    let overrun = "frame 5 record 7 time 30000000 server stream-overrun stream 1 value -1";
    assert!(is_refused(&[overrun]));
    assert!(is_refused(&["frame 99 record 7 time 30000000 server after-end stream 1 value 0"]));
    assert!(is_refused(&["audit stopped at frame 5"]), "no error stands there");
}

#[test]
fn behind_the_end_of_the_audit() {
    let stop = ["frame 4 record 7 time 30000000 server wrong-size stream 1 value 1", "audit stopped at frame 4"];
    let mut talk = stalled();
    talk.records[2].1 = 29 * MS;
    let said = talk.told(&stop).expect("an answer");
    assert_eq!(said.stopped_at.map(|at| at.frame), Some(4));
    let one = said.requests.get(0).expect("a request");
    assert_eq!(shares(&one, SERVER), [("waiting", 1), ("unseen", 70)]);
    assert_eq!(one.cause.kind, CauseKind::Unseen);
}

#[test]
fn times_that_go_back() {
    let mut talk = stalled();
    talk.records.push((CLIENT, 95 * MS, frame(kind::PING, 0, 0, &[0; 8])));
    let one = &talk.requests(&STALL)[0];
    assert_eq!(shares(one, SERVER), [("waiting", 10), ("stream_stall", 60), ("idle", 10)]);
    assert_eq!(talk.known().0.back, Some((10, 10)));
    talk.records[3].1 = 10 * MS;
    let early = STALL[0].replace("30000000", "10000000");
    let one = &talk.requests(&[&early, STALL[1]])[0];
    assert_eq!(shares(one, SERVER), [("stream_stall", 70), ("idle", 10)], "a time counts as the latest before it");
}

#[test]
fn names_that_are_not_wanted() {
    let mut talk = stalled();
    talk.has_names = false;
    let one = &talk.requests(&STALL)[0];
    assert_eq!((one.name.as_deref(), one.status, one.sides[SERVER].content), (None, None, 65_535));
}
