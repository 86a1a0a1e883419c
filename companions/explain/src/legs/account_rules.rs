//! Each rule of whose an instant is (docs/WHY.md, 14), by requests whose courses and shares are set.

use crate::answer::{At, Cause, CauseKind, CauseWhy, Direction, Ended, How, Nanos, Request, Share, Shares, Span};
use crate::causes::no_cause;
use crate::legs::account::{account, Leg, Legs, Lived, Sent};
use crate::legs::course::tests::course;
use crate::legs::course::ByteCourse;
use crate::legs::said::Whose;
use crate::side_of;

pub type Spans = &'static [(Nanos, Share)];

/// A request from an opening on: what each direction does up to times, the last of which is its end.
pub fn request(opened: Nanos, sides: [Spans; 2]) -> Request {
    let at = |time| At { packet: 1, time, frame: 1 };
    let directions = sides.map(|ends| {
        let mut begin = opened;
        let spans = ends.iter().map(|(end, share)| {
            let span = Span { begin, end: *end, share: *share };
            begin = *end;
            span
        });
        let spans: Vec<Span> = spans.filter(|span| span.begin < span.end).collect();
        let nanos = begin - opened;
        let (shares, content, end) = (Shares::default(), 0, Some(at(begin)));
        Direction { nanos, shares, spans: Some(spans), content, first: None, end, stalls: 0, waited: 0 }
    });
    let until = directions.iter().map(|one| opened + one.nanos).fold(opened, Nanos::max);
    Request {
        stream: 1,
        name: None,
        method: None,
        path: None,
        authority: None,
        status: None,
        grpc_status: None,
        promised_on: 0,
        opened: at(opened),
        ended: Ended { how: How::EndStream, side: None, code: None, at: None },
        until,
        sides: directions,
        cause: no_cause(),
        held: 0,
        is_hung: false,
        hung_nanos: 0,
        is_end_unseen: false,
        was_open: false,
    }
}

fn lived(of: &Request) -> Lived<'_> {
    let sent = |side: usize| {
        let one = &of.sides[side];
        Sent { nanos: one.nanos, spans: one.spans.as_deref(), has_content: one.content > 0 }
    };
    Lived { opened: of.opened.time, until: of.until, sides: [sent(0), sent(1)], cause: of.cause }
}

/// A head, and an end.
fn asked(time: Nanos) -> ByteCourse {
    course(time, &[], Some(time))
}

struct Both {
    front: Request,
    back: Request,
    front_courses: [ByteCourse; 2],
    back_courses: [ByteCourse; 2],
    tries: Vec<(Nanos, Nanos)>,
    round_trip: Nanos,
}

impl Both {
    /// A request without content from 0 to 100, carried from 10 to 80.
    fn new(front: Spans, back: Spans, sent: ByteCourse, came: ByteCourse) -> Both {
        Both {
            front: request(0, [&[(0, Share::Sending)], front]),
            back: request(10, [&[(10, Share::Sending)], back]),
            front_courses: [asked(0), sent],
            back_courses: [asked(10), came],
            tries: Vec::new(),
            round_trip: 0,
        }
    }

    /// Whose each stretch is.
    fn told(&self) -> Vec<(Nanos, Nanos, Whose)> {
        let (front, back, round_trip) = (lived(&self.front), lived(&self.back), self.round_trip);
        let back = Some(Leg { said: &back, courses: &self.back_courses, round_trip });
        let front = Leg { said: &front, courses: &self.front_courses, round_trip };
        let mut stretches = Vec::new();
        account(&Legs { front, tries: &self.tries, back }, &mut stretches);
        assert_eq!(stretches.iter().map(|one| one.end - one.begin).sum::<Nanos>(), self.front.nanos());
        stretches.iter().map(|one| (one.begin, one.end, one.whose)).collect()
    }
}

fn cause(side: usize, why: CauseWhy) -> Cause {
    Cause { kind: CauseKind::StreamWindow, why, side: side_of(side), ..no_cause() }
}

use Share::{ConnectionStall, Idle, Others, Sending, StreamStall, Tcp, Unseen, Waiting};

/// An answer that comes from 20 on, in two parts until 80, and is sent on from 30 on.
fn answers(front: Spans, back: Spans) -> Both {
    let (sent, came) = (course(30, &[(40, 10), (90, 10)], Some(100)), course(20, &[(21, 10), (60, 10)], Some(80)));
    Both::new(front, back, sent, came)
}

#[test]
fn before_the_back_request_is_opened() {
    let mut both = answers(&[(30, Waiting), (100, Sending)], &[(20, Waiting), (80, Sending)]);
    assert_eq!(both.told()[..2], [(0, 10, Whose::ProxyBefore), (10, 20, Whose::Upstream)]);
    both.tries = vec![(2, 7)];
    let all = [(0, 2, Whose::ProxyBefore), (2, 7, Whose::FailedTry), (7, 10, Whose::ProxyBefore)];
    assert_eq!(both.told()[..3], all);
    both.round_trip = 4;
    assert_eq!(both.told()[3..5], [(10, 14, Whose::Back), (14, 20, Whose::Upstream)]);
}

#[test]
fn while_bytes_of_the_answer_are_held() {
    let told = |during: Spans| answers(during, &[(20, Waiting), (80, Sending)]).told();
    let held = |during: Spans| told(during).into_iter().find(|one| one.0 == 60).map(|one| (one.1, one.2));
    assert_eq!(held(&[(30, Waiting), (60, Sending), (90, StreamStall), (100, Sending)]), Some((90, Whose::Client)));
    assert_eq!(held(&[(30, Waiting), (60, Idle), (90, ConnectionStall), (100, Sending)]), Some((90, Whose::Client)));
    assert_eq!(held(&[(30, Waiting), (60, Idle), (90, Tcp), (100, Idle)]), Some((90, Whose::Front)));
    assert_eq!(held(&[(30, Waiting), (60, Idle), (90, Others), (100, Idle)]), Some((90, Whose::Front)));
    assert_eq!(held(&[(30, Waiting), (60, StreamStall), (90, Idle), (100, Sending)]), Some((90, Whose::ProxyHeld)));
    assert_eq!(held(&[(30, Waiting), (60, StreamStall), (100, Unseen)]), Some((100, Whose::Unseen)));
    let waiting = told(&[(30, Waiting), (100, Sending)]);
    assert!(waiting.contains(&(20, 30, Whose::ProxyHeld)), "it held the head: {waiting:?}");
}

#[test]
fn a_part_of_a_frame_is_on_its_way() {
    let back: Spans = &[(20, Waiting), (60, Sending), (80, StreamStall)];
    let mut both = answers(&[(30, Waiting), (100, Sending)], back);
    both.back_courses[1] = course(20, &[(21, 10)], None);
    both.back_courses[1].content([(42, 4), (70, 10)].into_iter(), false);
    let told = both.told();
    assert!(told.contains(&(40, 60, Whose::Back)) && told.contains(&(60, 70, Whose::ProxyStall)), "{told:?}");
}

#[test]
fn a_client_that_does_not_read_of_tcp() {
    let mut both = answers(&[(30, Waiting), (60, Sending), (90, Tcp), (100, Sending)], &[(20, Waiting), (80, Sending)]);
    both.front.cause = cause(1, CauseWhy::ZeroWindow);
    assert!(both.told().contains(&(60, 90, Whose::Client)));
    both.front.cause = cause(0, CauseWhy::ZeroWindow);
    assert!(both.told().contains(&(60, 100, Whose::Front)));
}

#[test]
fn while_nothing_of_the_answer_is_held() {
    let front: Spans = &[(30, Waiting), (100, Sending)];
    let all_sent = || course(20, &[(30, 10), (70, 10)], Some(80));
    let of = |back: Spans| {
        let mut both = Both::new(front, back, all_sent(), all_sent());
        both.back_courses[1] = course(20, &[(30, 10), (70, 10)], Some(90));
        both
    };
    let told = |both: &Both| both.told().into_iter().find(|one| one.0 == 40).map(|one| (one.1, one.2));
    assert_eq!(
        told(&of(&[(20, Waiting), (40, Sending), (60, StreamStall), (90, Sending)])),
        Some((60, Whose::ProxyStall))
    );
    assert_eq!(
        told(&of(&[(20, Waiting), (40, Idle), (60, ConnectionStall), (90, Idle)])),
        Some((60, Whose::ProxyStall))
    );
    assert_eq!(told(&of(&[(20, Waiting), (40, Idle), (60, Tcp), (90, Idle)])), Some((60, Whose::Back)));
    assert_eq!(told(&of(&[(20, Waiting), (40, Idle), (60, Others), (90, Idle)])), Some((60, Whose::Back)));
    assert_eq!(told(&of(&[(20, Waiting), (40, Sending), (60, Idle), (90, Sending)])), Some((60, Whose::Upstream)));
    assert_eq!(told(&of(&[(20, Waiting), (40, Sending), (90, Unseen)])), Some((90, Whose::Unseen)));
    let mut unshown = of(&[(20, Waiting), (40, Tcp), (60, Idle), (90, Sending)]);
    unshown.back.cause = cause(1, CauseWhy::Unshown);
    let found = unshown.told();
    assert!(
        found.contains(&(20, 90, Whose::ProxyRoundTrip)) && found.contains(&(10, 20, Whose::Upstream)),
        "{found:?}"
    );
}

#[test]
fn after_the_back_request() {
    let (front, back): (Spans, Spans) = (&[(60, Waiting), (100, Sending)], &[(50, Waiting)]);
    let told = Both::new(front, back, course(60, &[], Some(100)), ByteCourse::default()).told();
    assert_eq!(told, [(0, 10, Whose::ProxyBefore), (10, 50, Whose::Upstream), (50, 100, Whose::ProxyAfter)]);
}

/// An upload that comes until 60 and is sent on until 90.
fn uploads(front: Spans, back: Spans) -> Both {
    let mut both = answers(&[(95, Waiting), (100, Sending)], &[(92, Waiting), (98, Sending)]);
    both.front = request(0, [front, &[(95, Waiting), (100, Sending)]]);
    both.back = request(10, [back, &[(92, Waiting), (98, Sending)]]);
    both.front.sides[0].content = 20;
    both.front_courses = [course(0, &[(20, 10), (50, 10)], Some(60)), course(95, &[], Some(100))];
    both.back_courses = [course(10, &[(30, 10), (80, 10)], Some(90)), course(92, &[], Some(98))];
    both
}

#[test]
fn an_upload() {
    let sending: Spans = &[(60, Sending)];
    let told = |front: Spans, back: Spans, at: Nanos| {
        uploads(front, back).told().into_iter().find(|one| one.0 <= at && at < one.1).map(|one| one.2)
    };
    // Bytes of it are held.
    assert_eq!(told(sending, &[(50, Sending), (80, StreamStall), (90, Sending)], 60), Some(Whose::Upstream));
    assert_eq!(told(sending, &[(50, Sending), (80, Tcp), (90, Sending)], 60), Some(Whose::Back));
    assert_eq!(told(sending, &[(50, Sending), (80, Idle), (90, Sending)], 60), Some(Whose::ProxyHeld));
    // None is held between 30 and 50.
    let back: Spans = &[(90, Sending)];
    assert_eq!(told(&[(30, Sending), (50, ConnectionStall), (60, Sending)], back, 40), Some(Whose::ProxyStall));
    assert_eq!(told(&[(30, Sending), (50, Idle), (60, Sending)], back, 40), Some(Whose::Client));
    assert_eq!(told(&[(30, Sending), (50, Tcp), (60, Sending)], back, 40), Some(Whose::Front));
    // Behind it the answer's direction counts.
    let behind = [Whose::Upstream, Whose::ProxyHeld, Whose::Back];
    assert_eq!([90, 93, 96].map(|at| told(sending, back, at)), behind.map(Some));
}

#[test]
fn a_proxy_that_takes_in_all_of_an_upload_first() {
    let front: Spans = &[(20, Sending), (40, Idle), (50, StreamStall), (60, Sending)];
    let mut both = uploads(front, &[(90, Sending)]);
    both.back = request(70, [&[(90, Sending)], &[(92, Waiting), (98, Sending)]]);
    both.back_courses[0] = course(70, &[(80, 20)], Some(90));
    let all = [
        (0, 20, Whose::Front),
        (20, 40, Whose::Client),
        (40, 50, Whose::ProxyBefore),
        (50, 60, Whose::Front),
        (60, 70, Whose::ProxyBefore),
    ];
    assert_eq!(both.told()[..5], all);
}

#[test]
fn the_proxy_answers_itself() {
    let both = answers(&[(30, Waiting), (60, Sending), (90, StreamStall), (100, Idle)], &[(80, Sending)]);
    let front = Leg { said: &lived(&both.front), courses: &both.front_courses, round_trip: 0 };
    let mut stretches = Vec::new();
    let brakes = account(&Legs { front, tries: &[], back: None }, &mut stretches);
    let told: Vec<_> = stretches.iter().map(|one| (one.begin, one.end, one.whose)).collect();
    let all =
        [(0, 30, Whose::ProxyBefore), (30, 60, Whose::Front), (60, 90, Whose::Client), (90, 100, Whose::ProxyHeld)];
    assert_eq!(told, all);
    assert!(brakes.is_empty());
}

#[test]
fn too_many_spans_are_not_seen() {
    let mut both = answers(&[(30, Waiting), (100, Sending)], &[(20, Waiting), (80, Sending)]);
    both.front.sides[1].spans = None;
    let told = both.told();
    assert!(told.contains(&(20, 40, Whose::Unseen)) && told.contains(&(60, 100, Whose::Unseen)), "{told:?}");
}
