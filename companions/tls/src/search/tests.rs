use super::*;
use crate::key_schedule::{traffic_keys, TrafficKeys};
use crate::sample::sealed_in;
use crate::sealing::Sealer;
use crate::{CLIENT, SERVER};

/// A log of so many servers, by the hexadecimal digits of whose secrets each is told from the others.
fn log(count: usize, length: usize) -> Keys {
    let mut keys = Keys::default();
    for at in 0..count {
        let line = format!("SERVER_TRAFFIC_SECRET_0 {at:064x} {at:0width$x}\n", width = 2 * length);
        keys.add_text(line.as_bytes());
    }
    keys
}

fn secret(number: u64, length: usize) -> Vec<u8> {
    [&vec![0; length - 8], &number.to_be_bytes()[..]].concat()
}

/// Two records of these lengths with their types and tags, by the secret of this number.
fn records(code: u16, number: u64, at: u64, lengths: [usize; 2]) -> Vec<u8> {
    let mut sealer = Sealer { number: at, ..Sealer::new(code, 0) };
    sealer.secret = secret(number, sealer.secret.len());
    lengths.iter().flat_map(|length| sealer.data(&vec![1; length - 17])).collect()
}

#[test]
fn waves_are_all_numbers() {
    for numbers in [0, 1, 511, 512, 513, 5000, 1 << 20, u64::MAX] {
        let waves = waves(numbers);
        assert_eq!(waves.iter().map(|wave| wave.end - wave.start).sum::<u64>(), numbers);
        assert!(waves.windows(2).all(|pair| pair[0].end == pair[1].start));
        assert!(waves.len() < 60);
    }
}

/// Both sides are searched, by the secrets of clients and servers, and one that is found leaves its own to the other.
#[test]
fn what_is_found_says_whose_it_is() {
    let bytes = records(0x1303, 17, 600, [40, 30]);
    let sample = Sample::of(&sealed_in(&bytes));
    let keys = log(20, 32);
    let found = Search::default().find(&keys, &[None, sample], &Given::Nothing).ok().unwrap();
    assert_eq!((found.side, found.role, found.number, found.updates), (1, SERVER, 601, 0));
    assert_eq!((found.random[31], found.suite.code), (17, 0x1303));
    let other = |random, role| Given::Other(&FoundSecret { random, role, ..found.clone() }).has(&found.random, SERVER);
    assert!(other(found.random, CLIENT) && !other(found.random, SERVER) && !other([0; 32], CLIENT));
    let of_client = FoundSecret { role: CLIENT, ..found.clone() };
    let again = Search::default().find(&keys, &[sample, None], &Given::Other(&of_client)).ok().unwrap();
    assert_eq!((again.side, again.number), (0, 601));
}

/// How many tries a second each way makes. `cargo test --release -p tls -- --ignored --nocapture speed`
#[test]
#[ignore = "measures"]
fn speed() {
    println!("suite   length  pair and filter   filter alone   tag alone   (tries a second)");
    for code in [0x1301, 0x1302, 0x1303] {
        for length in [30, 1400, 16384] {
            let bytes = records(code, 1, 0, [length, length]);
            let found = sealed_in(&bytes);
            let wrong = Sealer::new(code, 9);
            let keys = traffic_keys(&wrong.suite, &wrong.secret);
            let mut best = [0.0f64; 3];
            for _ in 0..5 {
                best[0] = best[0].max(rate(&wrong, &keys, &found, true));
                best[1] = best[1].max(rate(&wrong, &keys, &found, false));
                best[2] = best[2].max(rate_of_tags(&wrong, &keys, &bytes));
            }
            println!("0x{code:x} {length:8} {:16.0} {:14.0} {:11.0}", best[0], best[1], best[2]);
        }
    }
}

fn rate(wrong: &Sealer, keys: &TrafficKeys, records: &[Sealed<'_>], has_neighbour: bool) -> f64 {
    const TRIES: u64 = 1 << 18;
    let samples = [None, None];
    let (suites, secret, keys) = (vec![wrong.suite], wrong.secret.clone(), keys.clone());
    let (random, stage) = ([0; 32], Stage::Traffic);
    let entry = Entry { random, role: SERVER, stage, suites, secret, keys, updates: 0, from: 0, side: None };
    let begun = Instant::now();
    let (bench, left) = (Bench::new().unwrap(), Duration::from_secs(60));
    let mut attempt = Attempt { bench, room: Vec::new(), samples: &samples, begun, left, numbers: TRIES, seconds: 60 };
    let tried = (records[0], has_neighbour.then_some((records[1], 1)));
    assert_eq!(attempt.number(&entry, &wrong.suite, tried, 0..TRIES), Ok(None));
    TRIES as f64 / begun.elapsed().as_secs_f64()
}

fn rate_of_tags(wrong: &Sealer, keys: &TrafficKeys, bytes: &[u8]) -> f64 {
    const TRIES: u64 = 1 << 13;
    let record = sealed_in(bytes)[0];
    let mut room = Vec::new();
    let mut opener = Opener::tls_1_3(&wrong.suite, keys).unwrap();
    let begun = Instant::now();
    for number in 0..TRIES {
        opener.go_to(number);
        assert!(opener.open(&record.header, record.body, &mut room).is_err());
    }
    TRIES as f64 / begun.elapsed().as_secs_f64()
}

/// The whole of a search: a log of so many servers, of which the last one is meant, at a record of this number. Secrets
/// of 32 bytes are tried with AES and with ChaCha20.
#[test]
#[ignore = "measures"]
fn speed_of_a_search() {
    for (code, count, at) in [
        (0x1301, 50, 99_999),
        (0x1302, 50, 99_999),
        (0x1303, 50, 99_999),
        (0x1302, 10_000, 2_000),
        (0x1302, 10_000, 100),
    ] {
        let length = if code == 0x1302 { 48 } else { 32 };
        let bytes = records(code, count - 1, at, [30, 1400]);
        let records = sealed_in(&bytes);
        let keys = log(count as usize, length);
        for (what, sample) in [("pair", Sample::of(&records)), ("alone", Sample::of(&records[..1]))] {
            let mut search = Search::new(1 << 20, 1000);
            let found = search.find(&keys, &[sample, None], &Given::Nothing).ok().unwrap();
            assert_eq!(found.number, at);
            println!("0x{code:x} {count} secrets, record {at}, {what}: {:?}", search.spent);
        }
    }
}
