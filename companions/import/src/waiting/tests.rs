use super::*;
use captures::{flags, made_headers, Item, Reader, Source as File};
use std::fs;
use std::path::Path;

const COUNT: u64 = 3000;

/// A capture of segments whose numbers count them, and which differ in length.
fn capture() -> Vec<u8> {
    let mut writer = pcap::Writer::new(Vec::new(), RAW).expect("room");
    for number in 1..=COUNT {
        let payload = vec![number as u8; number as usize % 500];
        let headers = made_headers(&[9; 12], [number as u32, 7], flags::ACK, payload.len());
        let original = (headers.len() + payload.len()) as u32;
        writer.write(number as i64 * 1000, original, [&headers, &payload]).expect("room");
    }
    writer.into_inner()
}

/// What waits of a file, of which each packet is kept with its place but some; and then something of it changes.
fn waiting(path: &Path, stays: fn(u64) -> bool, change: impl Fn(&mut Vec<u8>)) -> Waiting {
    let mut bytes = capture();
    fs::write(path, &bytes).expect("room");
    let mut reader = Reader::new(File::open(path.as_os_str()).expect("a file")).expect("a capture");
    let header = match &reader {
        Reader::Pcap(reader) => reader.header(),
        Reader::Pcapng(_) => panic!("it is pcap"),
    };
    let (mut kept, mut decoder, mut number) = (Kept::default(), Decoder::default(), 0);
    loop {
        let at = reader.next_place().expect("a file");
        let packet = match reader.next().expect("a capture") {
            Some(Item::Packet(packet)) => packet,
            _ => break,
        };
        number += 1;
        let segment = decoder.segment(&packet).ok().and_then(Result::ok).expect("a segment");
        let (source, arrival) = (Source::Hole(number as usize), Arrival { packet: number, nanos: packet.nanos });
        let place = stays(number).then(|| Place { file: 0, at });
        if number % 7 > 0 {
            let known = Known { source, flow: number as usize % 2, arrival, is_plaintext: false, place };
            kept.keep(&known, &segment).expect("room");
        }
    }
    change(&mut bytes);
    fs::write(path, &bytes).expect("room");
    kept.packets(vec![Original { path: path.into(), header }]).expect("room").expect("some")
}

#[test]
fn packets_come_back_from_where_they_wait() {
    let folder = tempfile::tempdir().expect("room");
    let ways: [fn(u64) -> bool; 3] = [|_| true, |_| false, |number| number % 5 > 0];
    for stays in ways {
        let mut waiting = waiting(&folder.path().join("a.pcap"), stays, |_| ());
        let mut decoder = Decoder::default();
        for number in (1..=COUNT).filter(|number| number % 7 > 0) {
            let waited = waiting.next().ok().flatten().expect("one more");
            let (known, segment) = (waited.known, waited.segment(&mut decoder).expect("a segment"));
            let arrival = Arrival { packet: number, nanos: number as i64 * 1000 };
            assert_eq!((known.source, known.arrival), (Source::Hole(number as usize), arrival));
            assert_eq!((known.flow, known.place.is_some()), (number as usize % 2, stays(number)));
            assert_eq!(segment.sequence, number as u32);
            assert_eq!(segment.payload(), vec![number as u8; number as usize % 500]);
        }
        assert!(waiting.next().ok().flatten().is_none());
    }
}

#[test]
fn a_file_that_changes() {
    let folder = tempfile::tempdir().expect("room");
    let changes: [fn(&mut Vec<u8>); 3] =
        [|bytes| bytes.truncate(90_000), |bytes| bytes[100_000..].fill(0xff), |bytes| bytes.clear()];
    for change in changes {
        let mut waiting = waiting(&folder.path().join("a.pcap"), |_| true, change);
        let mut decoder = Decoder::default();
        let failure = loop {
            let waited = waiting.next().map(|waited| waited.expect("one more"));
            match waited.and_then(|waited| waited.segment(&mut decoder).map(drop)) {
                Ok(()) => {}
                Err(failure) => break failure,
            }
        };
        assert!(failure.message().ends_with("a.pcap: changed while it was read"), "{}", failure.message());
    }
}

/// What goes on in a file comes from what is in view, and what is not in view is read.
#[test]
fn packets_of_any_length_go_on() {
    let folder = tempfile::tempdir().expect("room");
    let path = folder.path().join("a.pcap");
    let mut writer = pcap::Writer::new(Vec::new(), RAW).expect("room");
    let lengths: Vec<usize> = (0..400).map(|number| number * number % 60_000 / (1 + number % 3)).collect();
    for (number, length) in lengths.iter().enumerate() {
        let headers = made_headers(&[9; 12], [number as u32, 7], flags::ACK, *length);
        writer.write(number as i64, 9, [&headers, &vec![1; *length]]).expect("room");
    }
    fs::write(&path, writer.into_inner()).expect("room");
    let mut reader = match Reader::new(File::open(path.as_os_str()).expect("a file")).expect("a capture") {
        Reader::Pcap(reader) => reader,
        Reader::Pcapng(_) => panic!("it is pcap"),
    };
    let (header, mut kept) = (reader.header(), Kept::default());
    for number in 0..lengths.len() as u64 {
        let place = reader.next_place().map(|at| Place { file: 0, at });
        if let Ok(Some(Item::Packet(packet))) = reader.next() {
            let (source, arrival) = (Source::Pair(3), Arrival { packet: number + 1, nanos: packet.nanos });
            let segment = Decoder::default().segment(&packet).ok().and_then(Result::ok).expect("a segment");
            let known = Known { source, flow: number as usize % 2, arrival, is_plaintext: false, place };
            kept.keep(&known, &segment).expect("room");
        }
    }
    let mut waiting = kept.packets(vec![Original { path: path.into(), header }]).expect("room").expect("some");
    assert!(waiting.next().ok().flatten().is_some());
    let mut found = vec![0];
    waiting.go_on(|flow, arrival, written| {
        assert_eq!((flow as u64, arrival.nanos as u64 + 1), ((arrival.packet - 1) % 2, arrival.packet));
        found.push(written.payload().len());
    });
    assert!(found == lengths && waiting.next().ok().flatten().is_none());
}
