//! What TCP did, on packets that are made for it, and beside what else an import says.

mod common;

use std::num::NonZeroU64;
use std::path::Path;
use std::time::{Duration, Instant};

use captures::{flags, Arrival};
use common::{captured, Datagram};
use import::{Courses, Held, Record, Summary, TcpCourse, Why, CLIENT, NEVER, SERVER};

const SECOND: u64 = 1_000_000_000;
const MILLISECOND: u64 = 1_000_000;
const INITIAL: [u32; 2] = [100, 900];

fn datagram(side: usize, flags: u8, offset: u32, payload: &[u8]) -> Datagram {
    let syn = u32::from(flags & flags::SYN == 0);
    let sequence = (INITIAL[side] + syn).wrapping_add(offset);
    Datagram { side, sequence, flags, window: 65535, identification: 0, payload: payload.to_vec() }
}

fn data(side: usize, offset: u32, payload: &[u8]) -> Datagram {
    datagram(side, flags::ACK, offset, payload)
}

fn ack(side: usize) -> Datagram {
    datagram(side, flags::ACK, 0, b"")
}

fn opening() -> [Datagram; 3] {
    [datagram(CLIENT, flags::SYN, 0, b""), datagram(SERVER, flags::SYN | flags::ACK, 0, b""), ack(CLIENT)]
}

/// With each packet a nanosecond behind the one before it.
fn in_turn(datagrams: impl IntoIterator<Item = Datagram>) -> Vec<(u64, Datagram)> {
    (SECOND..).zip(datagrams).collect()
}

fn courses_of(packets: &[(u64, Datagram)]) -> (Courses, Summary) {
    let folder = tempfile::tempdir().unwrap();
    let path = folder.path().join("capture");
    std::fs::write(&path, captured(packets)).unwrap();
    let mut courses = Courses::default();
    let (_, (), summary) = common::import(&path, Path::new("none"), Some(&mut courses), |_, _| ()).ok().unwrap();
    (courses, summary)
}

fn course(courses: &Courses, number: usize) -> &TcpCourse {
    courses.connections[number].as_deref().unwrap()
}

/// The packet of this number of those that came in turn.
fn at(packet: u64) -> Option<Arrival> {
    Some(Arrival { packet, nanos: (SECOND + packet - 1) as i64 })
}

fn held(why: Why, side: usize, from: Option<Arrival>, to: Option<Arrival>) -> Held {
    let from = from.unwrap();
    let (end, last) = (to.map_or(NEVER, |to| to.nanos), to.and_then(|to| NonZeroU64::new(to.packet)));
    Held { begin: from.nanos, end, first: from.packet, last, bytes: 0, why, side: side as u8 }
}

fn resent(side: usize, after: Option<Arrival>, at: Option<Arrival>, bytes: u32) -> Held {
    let begin = after.unwrap().nanos;
    Held { begin, first: at.unwrap().packet, bytes, ..held(Why::Resent, side, after, at) }
}

#[test]
fn facts_of_a_connection() {
    let preface = b"PRI * HTTP/2.0\r\n\r\nSM\r\n\r\n\0\0\0\x04\0\0\0\0\0";
    let behind = preface.len() as u32;
    let packets = in_turn(opening().into_iter().chain([
        data(CLIENT, 0, preface),
        data(CLIENT, 0, preface), // captured twice
        data(CLIENT, 40, b"later"),
        data(CLIENT, behind, b"1234567"),
        data(CLIENT, 35, b"12345later!"),
        Datagram { window: 0, ..ack(SERVER) },
        data(SERVER, 0, b"answer"),
        datagram(SERVER, flags::FIN | flags::ACK, 6, b""),
        datagram(CLIENT, flags::RST, 46, b""),
    ]));
    let (courses, _) = courses_of(&packets);
    let course = course(&courses, 0);
    assert_eq!((courses.connections.len(), Some(course.syn)), (1, at(1)));
    assert_eq!((course.syn_ack, course.ack), (at(2), at(3)));
    let [client, server] = &course.sides;
    assert_eq!((client.fin, client.rst, client.last), (None, at(12), at(12)));
    assert_eq!((server.fin, server.rst, server.last), (at(11), None, at(11)));
    assert_eq!((client.segments, client.bytes, client.resent, client.doubled), (5, 46, 10, 1));
    assert_eq!((server.segments, server.bytes, server.resent, server.doubled), (1, 6, 0, 0));
    assert_eq!((client.lost, server.lost), (None, None));
    assert_eq!(
        course.held,
        [
            held(Why::Hole, CLIENT, at(6), at(7)),
            resent(CLIENT, at(7), at(8), 10),
            held(Why::ZeroWindow, CLIENT, at(9), at(10)),
        ]
    );
}

#[test]
fn what_lasts_to_the_end() {
    let packets = in_turn(opening().into_iter().chain([
        data(CLIENT, 5, b"behind a hole"),
        data(CLIENT, 30, b"behind another one"),
        data(CLIENT, 0, b"12345"),
        Datagram { window: 0, ..ack(SERVER) },
        Datagram { window: 0, ..ack(SERVER) },
        Datagram { window: 1, ..datagram(SERVER, flags::RST, 0, b"") },
    ]));
    let (courses, _) = courses_of(&packets);
    let course = course(&courses, 0);
    assert_eq!((course.sides[CLIENT].lost, course.sides[SERVER].lost), (at(4), None));
    assert_eq!(course.held, [held(Why::ZeroWindow, CLIENT, at(7), None)]);
    assert_eq!((course.held[0].end, course.held[0].last), (NEVER, None));
}

/// The window of a SYN that opens says nothing.
#[test]
fn windows_of_openings() {
    let [syn, answer, ack] = opening();
    let [syn, answer] = [syn, answer].map(|one| Datagram { window: 0, ..one });
    let (courses, _) = courses_of(&in_turn([syn, answer, ack]));
    assert_eq!(course(&courses, 0).held, [held(Why::ZeroWindow, CLIENT, at(2), None)]);
}

/// A segment was captured twice where its bytes came before with the same identification, or, without one, just before.
#[test]
fn captured_twice() {
    let [syn, answer, ack] = opening();
    let data = |identification, payload: &[u8]| Datagram { identification, ..data(CLIENT, 0, payload) };
    for (first, again, later, doubled) in [
        (data(0, b"same"), data(0, b"same"), MILLISECOND, 1),
        (data(0, b"same"), data(0, b"same"), MILLISECOND + 1, 0),
        (data(7, b"same"), data(7, b"same"), 9 * SECOND, 1),
        (data(7, b"same"), data(8, b"same"), 1, 0),
        (data(7, b"same"), data(7, b"sAme"), 1, 0),
        (data(7, b"same"), data(7, b"sam"), 1, 0),
    ] {
        let bytes = again.payload.len() as u64;
        let opening = in_turn([syn.clone(), answer.clone(), ack.clone()]);
        let packets = [opening, vec![(2 * SECOND, first), (2 * SECOND + later, again)]].concat();
        let (courses, _) = courses_of(&packets);
        let course = course(&courses, 0);
        let client = &course.sides[CLIENT];
        let resent = if doubled == 1 { 0 } else { bytes };
        assert_eq!((client.segments, client.bytes, client.resent, client.doubled), (2, 4, resent, doubled));
        assert_eq!(course.held.len(), if doubled == 1 { 0 } else { 1 });
    }
}

/// Also where a SYN stands before the same number and bytes, in either order.
#[test]
fn captured_twice_with_a_syn() {
    let [syn, answer, ack] = opening();
    let [plain, with_syn] = [flags::ACK, flags::SYN | flags::ACK].map(|flags| Datagram {
        flags,
        sequence: INITIAL[CLIENT] + 1,
        ..data(CLIENT, 0, b"x")
    });
    for (first, again) in [(&plain, &with_syn), (&with_syn, &plain)] {
        let packets = in_turn([&syn, &answer, &ack, first, again].map(Datagram::clone));
        assert_eq!(course(&courses_of(&packets).0, 0).sides[CLIENT].doubled, 1);
    }
}

/// No more than 32 segments lie between a packet and its double.
#[test]
fn captured_twice_far_apart() {
    for (between, doubled) in [(31, 1), (32, 0)] {
        let more = (0..between).map(|number| data(CLIENT, 5 + number, b"x"));
        let datagrams = opening().into_iter().chain([data(CLIENT, 0, b"first")]).chain(more);
        let packets = in_turn(datagrams.chain([data(CLIENT, 0, b"first")]));
        assert_eq!(course(&courses_of(&packets).0, 0).sides[CLIENT].doubled, doubled);
    }
}

/// A keep-alive brings a byte that was sent before, also where none was: then it was held back by nothing.
#[test]
fn keep_alive() {
    let packets = in_turn(opening().into_iter().chain([data(CLIENT, u32::MAX, b"\0")]));
    let (courses, _) = courses_of(&packets);
    let course = course(&courses, 0);
    assert_eq!(course.held, [resent(CLIENT, at(4), at(4), 1)]);
    assert_eq!((course.sides[CLIENT].bytes, course.sides[CLIENT].resent), (0, 1));
}

/// Two hosts connect again, now from the other end: what comes then is of the new connection.
#[test]
fn opened_again() {
    let [syn, answer, _] = opening();
    let turned = Datagram { side: SERVER, sequence: 5000, ..syn.clone() };
    let packets = in_turn([syn.clone(), answer, syn, turned, data(SERVER, 4100, b"of the new client")]);
    let (courses, summary) = courses_of(&packets);
    assert_eq!(courses.connections.len(), 2);
    assert_eq!(summary.outcomes.iter().map(|one| one.opening).collect::<Vec<_>>(), [1, 4]);
    assert_eq!(summary.outcomes.iter().map(|one| Some(one.last)).collect::<Vec<_>>(), [at(3), at(5)]);
    let [first, second] = [course(&courses, 0), course(&courses, 1)];
    assert_eq!((Some(first.syn), first.sides[CLIENT].last, first.sides[SERVER].last), (at(1), at(3), at(2)));
    assert_eq!((Some(second.syn), second.sides[CLIENT].last, second.sides[SERVER].last), (at(4), at(5), None));
    assert_eq!(second.sides[CLIENT].bytes, 17);
}

#[test]
fn times_that_go_back() {
    let [syn, answer, ack] = opening();
    let (courses, summary) = courses_of(&[(30, syn), (10, answer), (25, ack.clone()), (20, ack)]);
    let back = summary.back.unwrap();
    let first: Vec<_> = back.first.iter().map(|one| (one.arrival.packet, one.arrival.nanos, one.nanos)).collect();
    assert_eq!((first, back.packets, back.nanos, back.packet()), (vec![(2, 10, 20), (4, 20, 5)], 2, 20, 2));
    assert_eq!(course(&courses, 0).ack, Some(Arrival { packet: 3, nanos: 25 }));
    let late = opening().into_iter().cycle().zip(0..30).map(|(one, at)| (100 - at, one));
    let back = courses_of(&late.collect::<Vec<_>>()).1.back.unwrap();
    assert_eq!((back.first.len(), back.packets, back.first[15].arrival.packet), (16, 29, 17));
}

/// Bytes in the wrong order: the first one last, and each other one behind a hole of its own.
#[test]
fn holes_that_are_filled_last() {
    const COUNT: u32 = 100_000;
    let orders: [Vec<u32>; 2] =
        [(0..COUNT).rev().collect(), (1..COUNT).step_by(2).chain((0..COUNT).step_by(2)).collect()];
    for order in orders {
        let bytes = order.into_iter().map(|offset| data(CLIENT, offset, b"x"));
        let packets = in_turn(opening().into_iter().chain(bytes));
        let begin = Instant::now();
        let (courses, _) = courses_of(&packets);
        assert!(begin.elapsed() < Duration::from_secs(20), "it takes too long");
        let client = &course(&courses, 0).sides[CLIENT];
        assert_eq!((client.bytes, client.lost), (u64::from(COUNT), None));
        assert_eq!(course(&courses, 0).held, [held(Why::Hole, CLIENT, at(4), at(3 + u64::from(COUNT)))]);
    }
}

/// Each connection has its course, whatever it speaks, and what is made is the same without.
#[test]
fn courses_of_captures() {
    let bytes = |made: &mut Vec<u8>, record: &Record<'_>| made.extend(record.number.to_le_bytes());
    for (path, keys) in common::captures() {
        let mut courses = Courses::default();
        let with = common::import(&path, &keys, Some(&mut courses), bytes).ok().unwrap();
        let without = common::import(&path, &keys, None, bytes).ok().unwrap();
        common::import(&path, &keys, Some(&mut courses), bytes).ok().unwrap(); // takes back what was noted
        assert_eq!((&with.0, &with.1), (&without.0, &without.1));
        let openings: Vec<u64> = with.2.outcomes.iter().map(|outcome| outcome.opening).collect();
        let all = || courses.connections.iter().flatten();
        assert_eq!(all().map(|course| course.syn.packet).collect::<Vec<_>>(), openings);
        for side in all().flat_map(|course| &course.sides) {
            assert!(side.doubled <= side.segments && side.last.map_or(side.segments == 0, |last| last.packet > 0));
        }
    }
}
