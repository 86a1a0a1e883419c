//! Where the original stands for what is made, its packets have the datagrams of the records; and where it does not,
//! the same is made as without it, from whichever record on that is.

mod common;

use std::ffi::OsString;
use std::fs::{self, OpenOptions};
use std::io::Write;
use std::path::Path;

use captures::{Decoder, Item, Reader, Source};
use common::{captures, import, in_the_clear, Each, INTERESTING};
use import::{imported, Bounds, ImportOptions, MadeCapture, Record, Sink};
use mutations::{changed, each};

const ETHERNET: u8 = 1;
const RAW: u8 = 101;
const LINK: usize = 20;
/// A SYN of IPv6, from ::1 to ::2.
const SYN: [u8; 60] = {
    let mut octets = [0; 60];
    (octets[0], octets[5], octets[6], octets[7]) = (0x60, 20, 6, 64);
    (octets[23], octets[39], octets[41], octets[43]) = (1, 2, 80, 80);
    (octets[52], octets[53]) = (0x50, 2);
    octets
};

/// What is made where the original may stand for it, and which packet made each record.
fn made_of(path: &Path, keys: &Path) -> Option<(MadeCapture, Vec<u64>)> {
    let files = [OsString::from(path)];
    let key_logs: Vec<OsString> = keys.exists().then(|| keys.into()).into_iter().collect();
    let mut made = MadeCapture::new(&files, true).ok()?;
    let take = |packets: &mut Vec<u64>, record: &Record<'_>| packets.push(record.arrival.packet);
    let mut listener = Each { state: Vec::new(), take };
    let mut sink = Sink::new(&mut made, &mut listener).ok()?;
    let asked = ImportOptions {
        program: "import",
        files: &files,
        key_logs: &key_logs,
        is_reordered: false,
        is_joined: false,
        bounds: Bounds::default(),
        can_repeat: true,
    };
    imported(&asked, &mut sink, None).ok()?;
    Some((made, listener.state))
}

/// The datagram of each packet of TCP, by its number.
fn datagrams(path: &Path) -> Vec<(u64, Vec<u8>)> {
    let mut reader = Reader::new(Source::open(path.as_os_str()).ok().unwrap()).ok().unwrap();
    let (mut found, mut number, mut decoder) = (Vec::new(), 0, Decoder::default());
    while let Some(item) = reader.next().ok().unwrap() {
        if let Item::Packet(packet) = item {
            number += 1;
            if let Ok(Ok(segment)) = decoder.segment(&packet) {
                found.push((number, segment.datagram().concat()));
            }
        }
    }
    found
}

/// Whether the original stands for what is made.
fn try_one(path: &Path, keys: &Path) -> bool {
    let take = |packets: &mut Vec<u64>, record: &Record<'_>| packets.push(record.arrival.packet);
    let (written, packets, _) = match import(path, keys, None, take) {
        Ok(found) => found,
        Err(_) => return false,
    };
    let (mut made, listed) = made_of(path, keys).expect("it can be imported");
    assert_eq!(packets, listed);
    if !made.is_original() {
        assert_eq!(fs::read(made.path().ok().unwrap()).unwrap(), written);
        return false;
    }
    let records = made.records();
    for (number, packet) in (1..).zip(&packets) {
        assert_eq!(records.of(*packet), Some(number));
    }
    assert_eq!(records.of(packets.iter().max().map_or(1, |last| last + 1)), None);
    let apart = path.with_extension("made");
    fs::write(&apart, &written).unwrap();
    let (originals, copies) = (datagrams(path), datagrams(&apart));
    assert_eq!(originals.len(), copies.len());
    for ((_, copy), packet) in copies.iter().zip(packets) {
        let at = originals.binary_search_by_key(&packet, |one| one.0).unwrap();
        // The payload of a stray is left out, and its length says so.
        assert!(originals[at].1[4..].starts_with(&copy[4..]));
    }
    true
}

/// A capture that ends with a packet of IPv6.
fn with_another(mut octets: Vec<u8>) -> Option<Vec<u8>> {
    let front: &[u8] = match octets.get(LINK) {
        Some(&ETHERNET) if octets[0] == 0xD4 || octets[0] == 0x4D => &[0, 0, 0, 0, 0, 0, 0, 0, 0, 0, 0, 0, 0x86, 0xDD],
        Some(&RAW) if octets[0] == 0xD4 || octets[0] == 0x4D => &[],
        _ => return None,
    };
    let length = ((front.len() + SYN.len()) as u32).to_le_bytes();
    for part in [&[0xFF, 0xFF, 0xFF, 0x7F, 0, 0, 0, 0][..], &length, &length, front, &SYN] {
        octets.extend_from_slice(part);
    }
    Some(octets)
}

#[test]
fn the_same_is_audited() {
    let folder = tempfile::tempdir().unwrap();
    let path = folder.path().join("capture.pcap");
    let all = captures().into_iter().chain(in_the_clear().into_iter().map(|path| (path.clone(), path.join("none"))));
    let (mut standing, mut departing) = (0, 0);
    for (source, keys) in all {
        let octets = fs::read(&source).unwrap();
        fs::write(&path, &octets).unwrap();
        let stands = try_one(&path, &keys);
        standing += u64::from(stands);
        if let Some(octets) = with_another(octets) {
            fs::write(&path, octets).unwrap();
            assert!(!try_one(&path, &keys));
            departing += u64::from(stands);
        }
    }
    assert!(standing > 20 && departing > 20, "{standing} {departing}");
}

#[test]
fn mutations() {
    let folder = tempfile::tempdir().unwrap();
    let path = folder.path().join("capture.pcap");
    let plain = in_the_clear().into_iter().map(|path| fs::read(path).unwrap());
    let small: Vec<Vec<u8>> = plain.filter(|octets| octets.len() < 1 << 17).collect();
    each(300, |dice| {
        let octets = changed(dice.of_these::<Vec<u8>>(&small), dice, &INTERESTING);
        let octets = if dice.below(2) == 0 { with_another(octets.clone()).unwrap_or(octets) } else { octets };
        fs::write(&path, octets).unwrap();
        try_one(&path, Path::new("none"));
    });
}

#[test]
fn changes_are_seen() {
    let folder = tempfile::tempdir().unwrap();
    let path = folder.path().join("capture.pcap");
    fs::copy(&in_the_clear()[0], &path).unwrap();
    let (made, _) = made_of(&path, Path::new("none")).unwrap();
    assert!(made.is_original() && !made.has_changed());
    OpenOptions::new().append(true).open(&path).unwrap().write_all(b"more").unwrap();
    assert!(made.has_changed());
}
