//! What listeners learn of a connection of TLS 1.3 that began before the capture.

mod common;

use std::ffi::OsString;
use std::fs;
use std::path::Path;

use captures::{Arrival, Decoder, Ends, Item, Reader, Source};
use common::{Each, Made};
use import::{imported, Became, Bounds, Courses, ImportOptions, Record, Sink};

/// A classic capture of this computer's order without the packets of its first half.
fn second_half(capture: &[u8]) -> Vec<u8> {
    let mut at = 24;
    while at < capture.len() / 2 {
        at += 16 + u32::from_le_bytes(capture[at + 8..at + 12].try_into().unwrap()) as usize;
    }
    [&capture[..24], &capture[at..]].concat()
}

/// How many bytes of payload a capture's packets between such ends have, and all others; and its last packet.
fn payloads_in(path: &Path, ends: &Ends) -> ([u64; 2], Arrival) {
    let mut reader = Reader::new(Source::open(path.as_os_str()).ok().unwrap()).ok().unwrap();
    let (mut sums, mut last, mut decoder) = ([0; 2], Arrival { packet: 0, nanos: 0 }, Decoder::default());
    while let Some(item) = reader.next().ok().unwrap() {
        if let Item::Packet(packet) = item {
            last = Arrival { packet: last.packet + 1, nanos: packet.nanos };
            let segment = decoder.segment(&packet).ok().and_then(Result::ok).expect("a segment");
            sums[usize::from(segment.ends != *ends)] += segment.payload().len() as u64;
        }
    }
    (sums, last)
}

/// Bytes of TCP are those of the packets, whatever numbers the plaintext has.
#[test]
fn tcp_is_told_by_the_packets() {
    let (folder, tls) = (tempfile::tempdir().unwrap(), common::top().join("tests/tls"));
    let path = folder.path().join("capture");
    fs::write(&path, second_half(&fs::read(tls.join("key-updates.pcap")).unwrap())).unwrap();
    let (files, key_logs) = ([OsString::from(&path)], [OsString::from(tls.join("key-updates.keys"))]);
    let (mut made, mut courses) = (Made::default(), Courses::default());
    let take = |counts: &mut [u64; 2], record: &Record<'_>| counts[usize::from(record.is_made)] += 1;
    let mut listener = Each { state: [0; 2], take };
    let mut sink = Sink::new(&mut made, &mut listener).ok().unwrap();
    let asked = ImportOptions {
        program: "import",
        files: &files,
        key_logs: &key_logs,
        is_reordered: false,
        is_joined: true,
        bounds: Bounds::default(),
        can_repeat: true,
    };
    let summary = imported(&asked, &mut sink, Some(&mut courses)).ok().unwrap();
    drop(sink);
    assert_eq!((summary.outcomes.len(), summary.joined.len(), courses.connections.len()), (1, 1, 1));
    let (outcome, course) = (&summary.outcomes[0], courses.connections[0].as_ref().unwrap());
    let (sums, last) = payloads_in(&path, &outcome.ends);
    assert_eq!([0, 1].map(|side: usize| course.sides[side].bytes), sums);
    assert_eq!([0, 1].map(|side: usize| (course.sides[side].resent, course.sides[side].lost)), [(0, None); 2]);
    assert_eq!(outcome.last, last);
    match &outcome.became {
        Became::Read(read) => {
            assert!(read.skipped.is_some() && read.protocol.is_none());
            // Beside the plaintext, the first packet's headers stand among those of no connection.
            assert_eq!(listener.state, [read.records + 1, summary.joined[0].records]);
        }
        other => panic!("{}", other.words()),
    }
}
