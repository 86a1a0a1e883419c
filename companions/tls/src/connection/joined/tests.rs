use std::time::{Duration, Instant};

use captures::Arrival;

use crate::connection::{Emit, Known, Shared, TlsConnection};
use crate::reason::Reason;
use crate::records::{ALERT, APPLICATION_DATA, HANDSHAKE};
use crate::sealing::{Sealer, CODES};
use crate::search::{Search, MOST_UPDATES};
use crate::{CLIENT, SERVER};

const KNOWN: Known = Known { is_snapped: false, has_answer: false, has_client_ended: false };
const CUT: usize = 9;

/// Side, content and packet of each record.
#[derive(Default)]
struct Plain(Vec<(usize, Vec<u8>, u64)>);

impl Emit for Plain {
    fn emit(&mut self, side: usize, content: &[u8], arrival: Arrival) {
        self.0.push((side, content.to_vec(), arrival.packet));
    }
}

impl Plain {
    fn of(&self, side: usize) -> Vec<u8> {
        self.0.iter().filter(|(of, ..)| *of == side).flat_map(|(_, content, _)| content.clone()).collect()
    }
}

fn line(label: &str, random: u8, secret: &[u8]) -> String {
    let digits = |bytes: &[u8]| bytes.iter().map(|byte| format!("{byte:02x}")).collect::<String>();
    format!("{label} {} {}\n", digits(&[random; 32]), digits(secret))
}

/// The secrets of both sides, among those of other connections.
fn shared(client: &[u8], server: &[u8]) -> Shared {
    let mut shared = Shared::default();
    let length = client.len();
    for other in 1..4 {
        let secret = vec![0xE0 + other; length];
        shared.keys.add_text(line("CLIENT_TRAFFIC_SECRET_0", other, &secret).as_bytes());
        shared.keys.add_text(line("SERVER_HANDSHAKE_TRAFFIC_SECRET", other, &secret).as_bytes());
    }
    shared.keys.add_text(line("SERVER_TRAFFIC_SECRET_0", 9, server).as_bytes());
    shared.keys.add_text(line("CLIENT_TRAFFIC_SECRET_0", 9, client).as_bytes());
    shared
}

fn shared_of(client: &Sealer, server: &Sealer) -> Shared {
    shared(&client.secret, &server.secret)
}

/// Reads segments, each of a side, which packets from 1 on bring.
fn read(shared: &mut Shared, segments: &[(usize, &[u8])]) -> (Plain, TlsConnection) {
    let (mut plain, mut connection) = (Plain::default(), TlsConnection::from_middle(0, shared));
    let mut offsets = [0; 2];
    for (packet, (side, data)) in (1..).zip(segments) {
        let arrival = Arrival { packet, nanos: 0 };
        connection.segment(shared, &mut plain, *side, offsets[*side], data, arrival);
        offsets[*side] += data.len() as u32;
    }
    connection.finish(shared, &mut plain, &KNOWN);
    (plain, connection)
}

/// Packets that are not whole leave no whole record.
#[test]
fn snapped_packets() {
    let mut shared = shared(&[1; 48], &[2; 48]);
    let record = Sealer::new(0x1302, 1).data(&text(500));
    for (is_snapped, wanted) in [(false, Reason::Tail(30)), (true, Reason::Snapped)] {
        let mut connection = TlsConnection::from_middle(0, &shared);
        let arrival = Arrival { packet: 1, nanos: 0 };
        connection.segment(&mut shared, &mut Plain::default(), CLIENT, 0, &record[..30], arrival);
        connection.segment(&mut shared, &mut Plain::default(), CLIENT, 500, &record[..30], arrival);
        connection.finish(&mut shared, &mut Plain::default(), &Known { is_snapped, ..KNOWN });
        assert_eq!(connection.refused(), Some(wanted));
    }
}

/// Text of so many bytes that differs from place to place.
fn text(length: usize) -> Vec<u8> {
    (0..length).map(|at| (at * 31 % 251) as u8).collect()
}

#[test]
fn each_suite_from_within_a_record() {
    for code in CODES {
        for updates in 0..3 {
            let (mut client, mut server) = (Sealer::new(code, 0xC1), Sealer::new(code, 0x5E));
            let mut shared = shared_of(&client, &server);
            (0..updates).for_each(|_| server.skip_to_update());
            (client.number, server.number) = (700, 5000);
            let up = [client.data(b"cut"), client.data(b"hello"), client.data(b"again")].concat();
            let down = [server.data(b"the first"), server.data(&text(16384)), server.data(b"short")].concat();
            let segments = [(SERVER, &down[CUT..90]), (CLIENT, &up[CUT..]), (SERVER, &down[90..])];
            let (plain, connection) = read(&mut shared, &segments);
            assert_eq!(connection.refused(), None, "{code:x} {updates}");
            let wanted = [(CLIENT, b"hello".to_vec(), 2), (CLIENT, b"again".to_vec(), 2), (SERVER, text(16384), 3)];
            assert_eq!(plain.0[..3], wanted);
            assert_eq!(plain.0[3], (SERVER, b"short".to_vec(), 3));
            assert_eq!(plain.0.len(), 4);
            assert_eq!(connection.side(SERVER).skipped(), 5 + 10 + client.suite.tag_length() - CUT);
            assert_eq!((connection.client(), connection.count()), (Some(CLIENT), 4));
        }
    }
}

/// The secret tells whose a side is.
#[test]
fn sides_may_be_the_other_way_round() {
    let (mut client, mut server) = (Sealer::new(0x1301, 1), Sealer::new(0x1301, 2));
    let mut shared = shared_of(&client, &server);
    let (up, down) = ([client.data(b"a"), client.data(b"bc")].concat(), server.data(b"def"));
    let (plain, connection) = read(&mut shared, &[(SERVER, &up), (CLIENT, &down)]);
    assert_eq!((plain.of(SERVER), plain.of(CLIENT)), (b"abc".to_vec(), b"def".to_vec()));
    assert_eq!(connection.client(), Some(SERVER));
}

/// What a side sends later is tried at its first record, so that plaintext keeps its order.
#[test]
fn a_side_that_is_silent_at_first() {
    let (mut client, mut server) = (Sealer::new(0x1303, 1), Sealer::new(0x1303, 2));
    let mut shared = shared_of(&client, &server);
    let down: Vec<_> = (0..4).map(|at| server.data(&[at])).collect();
    (client.number, server.number) = (100_000, 0);
    let up = client.data(b"late");
    let segments = [(SERVER, &down[0][..]), (SERVER, &down[1]), (SERVER, &down[2]), (CLIENT, &up), (SERVER, &down[3])];
    let (plain, connection) = read(&mut shared, &segments);
    let order: Vec<_> = plain.0.iter().map(|(side, _, packet)| (*side, *packet)).collect();
    assert_eq!(order, [(SERVER, 1), (SERVER, 2), (SERVER, 3), (CLIENT, 4), (SERVER, 5)]);
    assert!(!connection.is_waiting());
}

/// Records before an update that waits with them, and behind it, are read, and so are later updates.
#[test]
fn updates_within_what_waits() {
    for code in [0x1302, 0x1303] {
        let mut server = Sealer::new(code, 2);
        let mut shared = shared_of(&Sealer::new(code, 1), &server);
        server.number = 40;
        let mut down = vec![server.data(&text(300)), server.data(&text(200)), server.update(), server.data(b"behind")];
        down.extend([server.data(b"it"), server.update(), server.data(b"more")]);
        let (plain, connection) = read(&mut shared, &[(SERVER, &down.concat()[1..])]);
        assert_eq!(connection.refused(), None);
        assert_eq!(plain.of(SERVER), [&text(200)[..], b"behinditmore"].concat());
    }
}

/// The last update that is tried, and one more.
#[test]
fn updates_are_bounded() {
    for (updates, wanted) in [(MOST_UPDATES, None), (MOST_UPDATES + 1, Some(Reason::SearchedNumbers(100)))] {
        let mut server = Sealer::new(0x1301, 2);
        let mut shared = Shared { search: Search::new(100, 60), ..shared_of(&Sealer::new(0x1301, 1), &server) };
        (0..updates).for_each(|_| server.skip_to_update());
        let down = [server.data(b"one"), server.data(b"two")].concat();
        assert_eq!(read(&mut shared, &[(SERVER, &down)]).1.refused(), wanted);
    }
}

#[test]
fn the_bound_of_numbers() {
    for (bound, wanted) in [(1502, None), (1501, None), (1500, Some(Reason::SearchedNumbers(1500)))] {
        let (client, mut server) = (Sealer::new(0x1303, 1), Sealer::new(0x1303, 2));
        let mut shared = Shared { search: Search::new(bound, 60), ..shared_of(&client, &server) };
        server.number = 1500;
        let down = [server.data(b"a"), server.data(b"longer")].concat();
        assert_eq!(read(&mut shared, &[(SERVER, &down)]).1.refused(), wanted, "{bound}");
    }
}

/// Time is of all connections together, and each takes a part of it.
#[test]
fn the_bound_of_time() {
    let mut server = Sealer::new(0x1303, 2);
    let mut shared = Shared { search: Search::new(u64::MAX, 1), ..shared(&[1; 32], &[3; 32]) };
    let down = [server.data(b"a"), server.data(b"b")].concat();
    let begun = Instant::now();
    for _ in 0..40 {
        assert_eq!(read(&mut shared, &[(SERVER, &down)]).1.refused(), Some(Reason::SearchedSeconds(1)));
    }
    let took = begun.elapsed();
    assert!((Duration::from_millis(900)..Duration::from_secs(5)).contains(&took), "{took:?}");
    shared.keys.add_text(line("SERVER_TRAFFIC_SECRET_0", 7, &server.secret).as_bytes());
    assert_eq!(read(&mut shared, &[(SERVER, &down)]).1.refused(), Some(Reason::SearchedSeconds(1)));
    shared.search = Search::new(100, 1);
    assert_eq!(read(&mut shared, &[(SERVER, &down)]).1.refused(), None);
}

#[test]
fn a_log_without_the_secret() {
    let (mut client, mut server) = (Sealer::new(0x1302, 1), Sealer::new(0x1302, 2));
    let segments = [server.data(b"a"), server.data(b"b"), client.data(b"c")];
    let segments = [(SERVER, &segments[0][..]), (SERVER, &segments[1]), (CLIENT, &segments[2])];
    let mut none = Shared::default();
    none.keys.add_text(line("CLIENT_RANDOM", 9, &[1; 48]).as_bytes());
    assert_eq!(read(&mut none, &segments).1.refused(), Some(Reason::NoKey));
    let mut others = Shared { search: Search::new(5000, 60), ..shared(&[3; 48], &[4; 48]) };
    let (_, connection) = read(&mut others, &segments);
    assert_eq!(connection.refused(), Some(Reason::SearchedNumbers(5000)));
    assert!(connection.has_records());
}

/// Where one side's secret is there, that side is read.
#[test]
fn a_log_with_the_secret_of_one_side() {
    let (mut client, mut server) = (Sealer::new(0x1302, 1), Sealer::new(0x1302, 2));
    let mut shared = shared(&client.secret, &[4; 48]);
    let segments = [server.data(b"a"), server.data(b"b"), client.data(b"c"), client.data(b"d")];
    let [a, b, c, d] = &segments;
    let (plain, connection) = read(&mut shared, &[(SERVER, a), (CLIENT, c), (CLIENT, d), (SERVER, b)]);
    assert_eq!((plain.of(CLIENT), plain.of(SERVER)), (b"cd".to_vec(), Vec::new()));
    let end = connection.side(SERVER).end().map(|(why, arrival)| (why, arrival.packet));
    assert_eq!(end, Some((Reason::SearchedNumbers(shared.search.numbers), 1)));
    assert_eq!(connection.refused(), None);
}

/// A record of TLS 1.2 in GCM: a nonce that counts, and what nothing here opens.
fn record_of_1_2(kind: u8, nonce: u64, length: usize) -> Vec<u8> {
    let body = [&nonce.to_be_bytes()[..], &text(length)].concat();
    [&[kind, 3, 3, (body.len() >> 8) as u8, body.len() as u8], &body[..]].concat()
}

#[test]
fn tls_1_2_is_refused_by_name() {
    let of_data = |nonce, length| record_of_1_2(APPLICATION_DATA, nonce, length);
    let counting = [of_data(77, 40), of_data(78, 1000), of_data(79, 30)].concat();
    let with_alert = [of_data(77, 40), record_of_1_2(ALERT, 78, 18)].concat();
    let by_chance = [of_data(77, 40), of_data(79, 40)].concat();
    let refused = |data: &[u8]| {
        let mut shared = Shared { search: Search::new(100, 60), ..shared(&[3; 32], &[4; 32]) };
        read(&mut shared, &[(CLIENT, &data[CUT..])]).1.refused()
    };
    assert_eq!(refused(&[of_data(76, 9), counting].concat()), Some(Reason::NoServerRandom));
    assert_eq!(refused(&[of_data(76, 9), with_alert].concat()), Some(Reason::NoServerRandom));
    assert_eq!(refused(&[of_data(76, 9), by_chance].concat()), Some(Reason::SearchedNumbers(100)));
}

/// Once a side is opened, nothing in the clear makes the connection another version.
#[test]
fn a_version_that_is_known_stays() {
    let (mut client, mut server) = (Sealer::new(0x1302, 1), Sealer::new(0x1302, 2));
    let mut shared = shared_of(&client, &server);
    let down: Vec<_> = (0..3).map(|at| server.data(&[at])).collect();
    let up = [client.data(b"said"), record_of_1_2(HANDSHAKE, 1, 40)].concat();
    let (plain, connection) = read(&mut shared, &[(SERVER, &down[..2].concat()), (CLIENT, &up), (SERVER, &down[2])]);
    assert_eq!((plain.of(CLIENT), plain.of(SERVER)), (b"said".to_vec(), vec![0, 1, 2]));
    assert_eq!(connection.side(CLIENT).end().map(|(why, _)| why), Some(Reason::NotTls));
    assert_eq!((connection.refused(), connection.side(SERVER).end()), (None, None));
}

/// The capture begins within the handshake: the secrets of handshakes open it, and then those of traffic.
#[test]
fn from_within_the_handshake() {
    let (mut first, mut then) = (Sealer::new(0x1301, 5), Sealer::new(0x1301, 2));
    let mut shared = shared_of(&Sealer::new(0x1301, 1), &then);
    shared.keys.add_text(line("SERVER_HANDSHAKE_TRAFFIC_SECRET", 9, &first.secret).as_bytes());
    first.number = 1;
    let finished = [&[20, 0, 0, 32][..], &[7; 32]].concat();
    let down = [first.record(&finished, HANDSHAKE, 0), then.data(b"settings")].concat();
    let (plain, connection) = read(&mut shared, &[(SERVER, &down), (SERVER, &then.data(b"more"))]);
    assert_eq!(connection.refused(), None);
    assert_eq!(plain.of(SERVER), b"settingsmore");
}

/// Behind lost bytes numbers go on, however high they are, and key updates may be among what was lost.
#[test]
fn behind_lost_records() {
    for updates in 0..3 {
        let (mut client, mut server) = (Sealer::new(0x1301, 1), Sealer::new(0x1301, 2));
        let mut shared = Shared { search: Search::new(200, 60), ..shared_of(&client, &server) };
        let (up, down) =
            ([client.data(b"a"), client.data(b"b")].concat(), [server.data(b"c"), server.update()].concat());
        let more: Vec<_> = (0..40).flat_map(|_| server.data(b"d")).collect();
        let (_, first) = read(&mut shared, &[(CLIENT, &up), (SERVER, &[down, more].concat())]);
        assert_eq!(first.count(), 43);
        (client.number, server.number) = (190, 150);
        (0..updates).for_each(|_| server.skip_to_update());
        let down = [server.data(b"lost"), server.data(b"e"), server.data(b"f")].concat();
        let mut plain = Plain::default();
        let mut connection = first.behind_loss(1, &shared).unwrap();
        for (side, data) in [(SERVER, &down[1..]), (CLIENT, &client.data(b"g"))] {
            connection.segment(&mut shared, &mut plain, side, 0, data, Arrival { packet: 1, nanos: 0 });
        }
        connection.finish(&mut shared, &mut plain, &KNOWN);
        assert_eq!((plain.of(SERVER), plain.of(CLIENT)), (b"ef".to_vec(), b"g".to_vec()), "{updates}");
        assert_eq!(connection.client(), Some(CLIENT));
    }
    assert!(TlsConnection::from_middle(0, &Shared::default()).behind_loss(1, &Shared::default()).is_none());
}

/// A side of which nothing was lost was read to its end, also behind key updates that came after the other one's loss.
#[test]
fn key_updates_behind_the_loss_of_the_other_side() {
    for (before, behind) in [(0, 1), (1, 1), (0, 4), (6, 3)] {
        let (mut client, mut server) = (Sealer::new(0x1301, 1), Sealer::new(0x1301, 2));
        let mut shared = Shared { search: Search::new(200, 60), ..shared_of(&client, &server) };
        let updated = |sealer: &mut Sealer| [sealer.update(), sealer.data(b"u"), sealer.data(b"v")].concat();
        let mut up = [client.data(b"a"), client.data(b"b")].concat();
        (0..before).for_each(|_| up.extend(updated(&mut client)));
        let mut more = [client.data(b"g"), client.data(b"h")].concat();
        (0..behind).for_each(|_| more.extend(updated(&mut client)));
        let down = [server.data(b"c"), server.data(b"d")].concat();
        let lost = server.data(b"lost").len();
        let rest = [server.data(b"e"), server.data(b"f")].concat();
        let (mut plain, mut first) = (Plain::default(), TlsConnection::from_middle(0, &shared));
        let segments =
            [(CLIENT, 0, &up), (SERVER, 0, &down), (SERVER, down.len() + lost, &rest), (CLIENT, up.len(), &more)];
        for (side, offset, data) in segments {
            first.segment(&mut shared, &mut plain, side, offset as u32, data, Arrival { packet: 1, nanos: 0 });
        }
        first.finish(&mut shared, &mut plain, &KNOWN);
        first.let_go();
        let (mut plain, mut next) = (Plain::default(), first.behind_loss(1, &shared).unwrap());
        for (side, data) in [(SERVER, &rest), (CLIENT, &more)] {
            next.segment(&mut shared, &mut plain, side, 0, data, Arrival { packet: 1, nanos: 0 });
        }
        next.finish(&mut shared, &mut plain, &KNOWN);
        let wanted = [&b"gh"[..], &b"uv".repeat(behind)].concat();
        assert_eq!((plain.of(SERVER), plain.of(CLIENT)), (b"ef".to_vec(), wanted), "{before} {behind}");
    }
}

/// A side of which nothing was read before is known by its connection.
#[test]
fn behind_lost_records_of_one_side() {
    let (mut client, mut server) = (Sealer::new(0x1301, 1), Sealer::new(0x1301, 2));
    let mut shared = shared_of(&client, &server);
    let (_, first) = read(&mut shared, &[(CLIENT, &[client.data(b"a"), client.data(b"b")].concat())]);
    (client.number, server.number) = (20, 30);
    let (up, down) = (client.data(b"c"), [server.data(b"d"), server.data(b"e")].concat());
    let (mut plain, mut connection) = (Plain::default(), first.behind_loss(1, &shared).unwrap());
    for (side, data) in [(SERVER, &down), (CLIENT, &up)] {
        connection.segment(&mut shared, &mut plain, side, 0, data, Arrival { packet: 1, nanos: 0 });
    }
    assert_eq!((plain.of(SERVER), plain.of(CLIENT)), (b"de".to_vec(), b"c".to_vec()));
}

/// What waited together is told in the order in which it came.
#[test]
fn both_sides_keep_their_order() {
    let (mut client, mut server) = (Sealer::new(0x1301, 1), Sealer::new(0x1301, 2));
    let mut shared = shared_of(&client, &server);
    let down = [server.data(b"cut"), server.data(&text(30)), server.data(&text(30))].concat();
    let (up, half) = (client.data(b"c"), 30);
    let segments = [(SERVER, &down[1..half]), (CLIENT, &up[..]), (SERVER, &down[half..100]), (SERVER, &down[100..])];
    let (plain, connection) = read(&mut shared, &segments);
    let order: Vec<_> = plain.0.iter().map(|(side, _, packet)| (*side, *packet)).collect();
    assert_eq!(order, [(CLIENT, 2), (SERVER, 3), (SERVER, 4)]);
    assert_eq!(connection.side(SERVER).skipped(), 24);
}

#[test]
fn padding_alerts_and_one_record_alone() {
    let (client, mut server) = (Sealer::new(0x1302, 1), Sealer::new(0x1302, 2));
    let (padded, alert) = (server.record(b"padded", APPLICATION_DATA, 5), server.record(&[1, 0], ALERT, 0));
    let mut shared = shared_of(&client, &server);
    assert_eq!(read(&mut shared, &[(SERVER, &padded)]).0.of(SERVER), b"padded");
    let (plain, connection) = read(&mut shared, &[(SERVER, &padded), (SERVER, &alert)]);
    assert_eq!((plain.of(SERVER), connection.refused()), (b"padded".to_vec(), None));
    let (_, connection) = read(&mut shared, &[(SERVER, &alert)]);
    assert_eq!((connection.refused(), connection.count()), (None, 0));
}

/// Keys that come later in the capture are waited for, up to 1 MiB of a side.
#[test]
fn keys_that_come_later() {
    let mut server = Sealer::new(0x1302, 2);
    let records: Vec<_> = (0..70).map(|_| server.data(&text(16000))).collect();
    for (before, wanted) in [(60, None), (70, Some(Reason::NoKey))] {
        let mut shared = Shared { more_keys: true, ..Shared::default() };
        let (mut plain, mut connection) = (Plain::default(), TlsConnection::from_middle(0, &shared));
        for (packet, record) in records[..before].iter().enumerate() {
            let arrival = Arrival { packet: packet as u64, nanos: 0 };
            let offset = (packet * record.len()) as u32;
            connection.segment(&mut shared, &mut plain, SERVER, offset, record, arrival);
        }
        shared.keys.add_text(line("SERVER_TRAFFIC_SECRET_0", 9, &server.secret).as_bytes());
        connection.finish(&mut shared, &mut plain, &KNOWN);
        assert_eq!(connection.refused(), wanted);
        assert_eq!(plain.0.len(), if wanted.is_none() { before } else { 0 });
    }
}

#[test]
fn what_is_no_tls_or_too_little() {
    let refused = |data: &[u8]| {
        let (_, connection) = read(&mut shared(&[1; 48], &[2; 48]), &[(CLIENT, data), (SERVER, data)]);
        assert!(!connection.has_records());
        connection.refused()
    };
    let cut = Sealer::new(0x1302, 1).data(&text(500));
    assert_eq!(refused(b"PRI * HTTP/2.0\r\n\r\nSM\r\n\r\n"), Some(Reason::Tail(24)));
    assert_eq!(refused(&text(40_000)), Some(Reason::NotTls));
    assert_eq!(refused(&cut[..500]), Some(Reason::Tail(500)));
    assert_eq!(refused(&[]), Some(Reason::NotTls));
}

/// Records that follow each other, none of which can be tried beside another, are not gone over at each segment.
#[test]
fn hostile_records_take_linear_time() {
    let first = Sealer::new(0x1302, 1).data(b"alone");
    let update = Sealer::new(0x1302, 1).update();
    for next in [&[ALERT, 3, 3, 0, 2, 1, 0][..], &update] {
        let took = |count: usize| {
            let segments: Vec<_> =
                [&first[..]].into_iter().chain(vec![next; count]).map(|part| (SERVER, part)).collect();
            let mut shared = Shared { search: Search::new(10, 60), ..shared(&[3; 48], &[4; 48]) };
            let begun = Instant::now();
            read(&mut shared, &segments);
            begun.elapsed()
        };
        let best = |count| (0..3).map(|_| took(count)).min().unwrap();
        let (short, long) = (best(1000), best(16_000));
        assert!(long < short * 64 + Duration::from_millis(50), "{short:?} {long:?}");
    }
}

/// Whatever is changed, what is read was sent.
#[test]
fn mutated_records() {
    let (mut client, mut server) = (Sealer::new(0x1301, 1), Sealer::new(0x1301, 2));
    let mut sent = vec![Vec::new(); 2];
    let mut bytes = [Vec::new(), Vec::new()];
    for at in 0..12 {
        for (side, sealer) in [&mut client, &mut server].into_iter().enumerate() {
            if at % 5 == 4 {
                bytes[side].extend(sealer.update());
            }
            sent[side].push(text(at * at * 20 + side));
            bytes[side].extend(sealer.data(&text(at * at * 20 + side)));
        }
    }
    let mut read_at_all = 0;
    mutations::each(300, |dice| {
        let mut shared = Shared { search: Search::new(50, 60), ..shared(&[1; 32], &[2; 32]) };
        let changed = [CLIENT, SERVER].map(|side| {
            let begun = dice.below(bytes[side].len());
            mutations::changed(&bytes[side][begun..], dice, &[b"\x17\x03\x03", b"\x15\x03\x03\x00\x02", b"\xff"])
        });
        let mut rest = [&changed[CLIENT][..], &changed[SERVER][..]];
        let mut segments = Vec::new();
        while rest.iter().any(|rest| !rest.is_empty()) {
            let side = dice.below(2);
            let (segment, behind) = rest[side].split_at(dice.below(1500).min(rest[side].len()));
            segments.push((side, segment));
            rest[side] = behind;
        }
        let (plain, connection) = read(&mut shared, &segments);
        plain.0.iter().for_each(|(side, content, _)| assert!(sent[*side].contains(content)));
        read_at_all += usize::from(connection.count() > 0);
    });
    assert!(read_at_all > 0);
}
