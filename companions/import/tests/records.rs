//! Each record comes with what a reader of the made capture finds for it by h2audit's rules (docs/AUDIT_RULES.md, 2
//! and 3).

mod common;

use std::collections::HashMap;
use std::fs;
use std::io::{Cursor, Write};
use std::os::unix::io::AsRawFd;
use std::path::Path;
use std::process::{Command, Stdio};

use captures::{flags, swapped, Decoder, Ends, Item, Packet, Reader, Source, RAW};
use import::{Record, Sender, CLIENT, SERVER};
use mutations::changed;

/// Where the SYN's number stands in its block: behind the heads of block, packet, Ethernet and IPv6, and the ports.
const SEQUENCE: usize = 28 + 14 + 40 + 4;

/// Reads records by themselves, and keeps them.
#[derive(Default)]
struct Plain {
    decoder: Decoder,
    last: HashMap<Ends, Sender>,
    /// The number of its SYN, by connections.
    initial: HashMap<usize, u32>,
    records: Vec<(i64, Vec<u8>)>,
}

impl Plain {
    fn check(&mut self, record: &Record<'_>) {
        let (written, nanos) = (record.segment, record.arrival.nanos);
        let bytes = written.parts.concat();
        let packet = Packet { nanos, link: Some(RAW), data: &bytes, original: written.original };
        let segment = self.decoder.segment(&packet).ok().unwrap().unwrap();
        assert_eq!((written.sequence, written.flags), (segment.sequence, segment.flags));
        assert_eq!((written.start, written.end), (segment.start, segment.end));
        assert_eq!(written.payload(), segment.payload());
        let found = self.last.get(&segment.ends).copied();
        let opened = found.filter(|found| found.side == CLIENT).map(|found| self.initial[&found.connection]);
        let is_syn = segment.flags & (flags::SYN | flags::ACK) == flags::SYN;
        assert_eq!(record.is_opening, is_syn && opened != Some(segment.sequence));
        if record.is_opening {
            let connection = record.sender.unwrap().connection;
            assert_eq!(self.initial.insert(connection, segment.sequence), None);
            self.last.insert(swapped(&segment.ends), Sender { connection, side: SERVER });
            self.last.insert(segment.ends, Sender { connection, side: CLIENT });
        }
        assert_eq!(record.sender, self.last.get(&segment.ends).copied());
        self.records.push((nanos, bytes));
        assert_eq!(record.number, self.records.len() as u64);
    }
}

/// How many connections were opened, where the capture can be imported.
fn checked(path: &Path, keys: &Path) -> Option<usize> {
    let (made, plain, summary) = common::import(path, keys, None, Plain::check).ok()?;
    assert_eq!(plain.initial.len(), summary.outcomes.len());
    let mut reader = Reader::new(Source::new(Box::new(Cursor::new(made))).ok().unwrap()).ok().unwrap();
    let mut records = plain.records.into_iter();
    while let Some(item) = reader.next().ok().unwrap() {
        match item {
            Item::Packet(packet) => assert_eq!(records.next(), Some((packet.nanos, packet.data.to_vec()))),
            _ => panic!("no packet"),
        }
    }
    assert_eq!(records.next(), None);
    Some(summary.outcomes.len())
}

#[test]
fn records_are_as_they_are_read() {
    let all: usize = common::captures().iter().map(|(path, keys)| checked(path, keys).unwrap()).sum();
    assert!(all > 50, "{all}");
}

#[test]
fn records_of_mutated_captures() {
    let folder = tempfile::tempdir().unwrap();
    let (capture, captures) = (folder.path().join("capture"), common::captures());
    mutations::each(1000, |dice| {
        let (path, keys) = dice.of_these(&captures);
        fs::write(&capture, changed(&fs::read(path).unwrap(), dice, &common::INTERESTING)).unwrap();
        checked(&capture, keys);
    });
}

/// The keys of a connection come behind the next opening of its pair: to h2audit all that is written then is the later
/// connection's.
#[test]
fn plaintext_behind_the_next_opening() {
    let whole = fs::read(common::top().join("tests/tls/secrets-inside.pcapng")).unwrap();
    let mut blocks = Vec::new();
    let mut rest = &whole[..];
    while !rest.is_empty() {
        let (block, behind) = rest.split_at(u32::from_le_bytes(rest[4..8].try_into().unwrap()) as usize);
        blocks.push(block.to_vec());
        rest = behind;
    }
    let secrets = blocks.remove(blocks.iter().position(|block| block[0] == 0xA && block[3] == 0).unwrap());
    let opening = blocks.iter().position(|block| block[0] == 6).unwrap();
    let mut again = blocks[opening].clone();
    again[SEQUENCE] ^= 1;
    blocks.extend([again, secrets]);
    let mut cat = Command::new("cat").stdin(Stdio::piped()).stdout(Stdio::piped()).spawn().unwrap();
    let (mut input, output) = (cat.stdin.take().unwrap(), cat.stdout.take().unwrap());
    let writing = std::thread::spawn(move || input.write_all(&blocks.concat()));
    let piped = format!("/proc/self/fd/{}", output.as_raw_fd());
    let late = |plain: &mut (Plain, u64), record: &Record<'_>| {
        plain.0.check(record);
        plain.1 += u64::from(!record.is_opening && record.sender.unwrap().connection == 1);
    };
    let (_, (plain, late), _) = common::import(piped.as_ref(), "none".as_ref(), None, late).ok().unwrap();
    writing.join().unwrap().unwrap();
    cat.wait().unwrap();
    assert_eq!(plain.initial.len(), 2);
    assert!(late > 10, "{late}");
}
