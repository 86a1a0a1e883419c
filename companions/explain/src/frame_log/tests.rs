use super::*;

fn came(record: u64, connection: usize, side: usize) -> Came {
    Came { record, at: At { packet: record + 10, time: -(record as Nanos), frame: 0 }, connection, side }
}

fn cut<'a>(kind: u8, length: u32, payload: &'a [u8], times: &'a [Nanos]) -> Cut<'a> {
    Cut { head: Head { length, kind, flags: 5, stream: 7 }, payload, times, arrived: &[5, 12][..times.len()] }
}

type Seen = (Came, Option<u32>, Vec<(Head, Vec<u8>, Vec<Nanos>, Vec<u32>)>);

fn all(log: &mut FrameLog) -> Vec<Seen> {
    let mut reader = log.reader().expect("a file");
    let mut found = Vec::new();
    while let Some(Entry { came, found: entry }) = reader.next().expect("an entry") {
        let mut seen = (came, None, Vec::new());
        match entry {
            Logged::Frames(frames) => {
                seen.1 = frames.begun;
                let given: Result<(), ()> = frames.each(|cut| {
                    seen.2.push((cut.head, cut.payload.to_vec(), cut.times.to_vec(), cut.arrived.to_vec()));
                    Ok(())
                });
                assert_eq!(given, Ok(()));
            }
            Logged::Unplaced(payload) => {
                assert_eq!((payload.sequence, payload.flags, payload.octets), (9, 2, &b"raw"[..]))
            }
        }
        found.push(seen);
    }
    assert_eq!((reader.read, reader.place), (reader.size(), reader.filled));
    found
}

#[test]
fn what_is_written_is_read() {
    let mut log = FrameLog::new().expect("a file");
    assert!(all(&mut log).is_empty());
    log.push(&cut(kind::HEADERS, 3, b"abc", &[-9, -1]));
    log.push(&cut(kind::DATA, 1 << 20, b"", &[-1]));
    log.push(&cut(kind::PING + 90, 5, b"", &[-1]));
    log.end(&came(1, 1 << 30, 1), Some(3)).expect("room");
    log.end(&came(2, 4, 0), None).expect("room");
    log.put_aside(&came(3, 4, 0), &Payload { sequence: 9, flags: 2, octets: b"raw" }).expect("room");
    let head = |kind, length| Head { length, kind, flags: 5, stream: 7 };
    let frames = vec![
        (head(kind::HEADERS, 3), b"abc".to_vec(), vec![-9, -1], vec![5, 12]),
        (head(kind::DATA, 1 << 20), Vec::new(), vec![-1], Vec::new()),
        (head(kind::PING + 90, 5), Vec::new(), vec![-1], Vec::new()),
    ];
    let wanted = [(came(1, 1 << 30, 1), Some(3), frames), (came(3, 4, 0), None, Vec::new())];
    assert_eq!(all(&mut log), wanted);
    assert_eq!(all(&mut log), wanted, "it is read once more");
    log.begin_anew().expect("a file");
    assert!(all(&mut log).is_empty());
}

#[test]
fn places_near_and_far_from_those_before() {
    let mut log = FrameLog::new().expect("a file");
    let far = Nanos::from(u32::MAX);
    let places =
        [(5, 9, 100), (6, 9, 100), (7, 10, 100 + far), (7 + (1 << 16), 11, 101 + far), (8, 12, 5), (9, 13, 6 + far)];
    let came =
        |(record, packet, time)| Came { record, at: At { packet, time, frame: 0 }, connection: 1 << 30, side: 1 };
    for place in places {
        log.push(&cut(kind::RST_STREAM, 4, b"code", &[0]));
        log.end(&came(place), Some(7).filter(|_| place.0 == 6)).expect("room");
    }
    let found: Vec<_> = all(&mut log).iter().map(|one| (one.0, one.1, one.2.len())).collect();
    let wanted: Vec<_> = places.iter().map(|place| (came(*place), Some(7).filter(|_| place.0 == 6), 1)).collect();
    assert_eq!(found, wanted);
}

#[test]
fn entries_longer_than_the_window() {
    let mut log = FrameLog::new().expect("a file");
    let long = vec![b'l'; 2 * BUFFER];
    for record in 0..9 {
        log.push(&cut(kind::SETTINGS, long.len() as u32, &long, &[0]));
        log.end(&came(record, 0, 0), None).expect("room");
        log.push(&cut(kind::RST_STREAM, 4, b"code", &[0]));
        log.end(&came(record, 1, 0), None).expect("room");
    }
    let found = all(&mut log);
    assert_eq!((found.len(), found.iter().map(|one| one.2[0].1.len()).sum::<usize>()), (18, 18 * BUFFER + 36));
}
