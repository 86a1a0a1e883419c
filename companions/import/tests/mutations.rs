//! Mutated captures and key logs: no panic, no work and no memory without bound, and a map that says what was made.
//!
//! Mutations are of the captures of tests/tls and tests/corpus.

mod common;

use std::ffi::OsString;
use std::fs;
use std::path::Path;
use std::time::{Duration, Instant};

use import::{imported, Bounds, Courses, ImportOptions, MapFile, Sink};
use mutations::changed;
use programs::{Failure, Output};

const MOST_SECONDS: u64 = 60;
/// What is made of a capture is at most so many times its size, besides what its header takes: the smallest record of
/// TLS with content has 23 bytes, in a packet of some size, and becomes a packet of 57.
const MOST_GROWTH: usize = 8;
/// What is made up for a connection that is joined, at most.
const MOST_MADE: usize = 17 << 20;

/// A search is so short that many captures can be tried.
const BOUNDS: Bounds = Bounds { numbers: 1 << 10, seconds: 10 };

/// How a capture is imported.
#[derive(Clone, Copy, Default)]
struct How {
    is_reordered: bool,
    is_joined: bool,
}

/// Imports these files into a folder, and answers the lines of the map.
fn import(folder: &Path, how: How) -> Result<Vec<u8>, Failure> {
    let mut outputs = Vec::new();
    for name in ["out", "map"] {
        outputs.push(Output::begin(&folder.join(name))?);
    }
    if let [out, map] = &mut outputs[..] {
        let (files, key_logs) = ([OsString::from(folder.join("capture"))], [OsString::from(folder.join("keys"))]);
        let How { is_reordered, is_joined } = how;
        let (program, files, key_logs) = ("import", &files[..], &key_logs[..]);
        let asked =
            ImportOptions { program, files, key_logs, is_reordered, is_joined, bounds: BOUNDS, can_repeat: true };
        let mut map = MapFile::new(Some(map), is_joined);
        let mut sink = Sink::new(out, &mut map)?;
        imported(&asked, &mut sink, Some(&mut Courses::default()))?;
    }
    outputs.into_iter().try_for_each(Output::finish)?;
    Ok(fs::read(folder.join("map")).unwrap())
}

/// How many packets a capture that was made has.
fn packets_in(made: &[u8]) -> usize {
    let (mut at, mut count) = (24, 0);
    while at < made.len() {
        at += 16 + u32::from_le_bytes(made[at + 8..at + 12].try_into().unwrap()) as usize;
        count += 1;
    }
    assert_eq!(at, made.len());
    count
}

fn try_one(folder: &Path, capture: &[u8], keys: &[u8], how: How) {
    fs::write(folder.join("capture"), capture).unwrap();
    fs::write(folder.join("keys"), keys).unwrap();
    let begin = Instant::now();
    let map = match import(folder, how) {
        Ok(map) => map,
        Err(Failure::Refused(_)) => return,
        Err(failure) => panic!("{}", failure.message()),
    };
    assert!(begin.elapsed() < Duration::from_secs(MOST_SECONDS), "it takes too long");
    let made = fs::read(folder.join("out")).unwrap();
    let lines = |word: &[u8]| map.split(|byte| *byte == b'\n').filter(|line| line.starts_with(word)).count();
    assert_eq!(lines(b"record ") + lines(b"made "), packets_in(&made));
    let is_packed = capture.starts_with(b"\x1f\x8b") || capture.starts_with(b"\x28\xb5");
    let most = 24 + MOST_GROWTH * capture.len() + lines(b"joined ") * MOST_MADE;
    assert!(is_packed || made.len() <= most, "{} of {}", made.len(), capture.len());
}

#[test]
fn mutated_captures_and_key_logs() {
    let folder = tempfile::tempdir().unwrap();
    let read = |(capture, keys)| (fs::read(capture).unwrap(), fs::read(keys).unwrap_or_default());
    let originals: Vec<(Vec<u8>, Vec<u8>)> = common::captures().into_iter().map(read).collect();
    mutations::each(3000, |dice| {
        let (capture, keys) = dice.of_these(&originals).clone();
        let how = How { is_reordered: dice.below(2) == 0, ..How::default() };
        if !keys.is_empty() && dice.below(4) == 0 {
            try_one(folder.path(), &capture, &changed(&keys, dice, &common::INTERESTING), how);
        } else {
            try_one(folder.path(), &changed(&capture, dice, &common::INTERESTING), &keys, how);
        }
    });
}

/// A classic capture without its first packets; others as they stand.
fn cut(capture: &[u8], dice: &mut mutations::Dice) -> Vec<u8> {
    if !capture.starts_with(&[0xD4, 0xC3, 0xB2, 0xA1]) {
        return capture.to_vec();
    }
    let mut at = 24;
    for _ in 0..dice.below(80) {
        match capture.get(at + 8..at + 12).and_then(|length| length.try_into().ok()).map(u32::from_le_bytes) {
            Some(length) if at + 16 + (length as usize) < capture.len() => at += 16 + length as usize,
            _ => break,
        }
    }
    [&capture[..24], &capture[at..]].concat()
}

/// Connections that began before the capture.
#[test]
fn mutated_captures_that_are_cut() {
    let folder = tempfile::tempdir().unwrap();
    let originals: Vec<Vec<u8>> = common::in_the_clear().iter().map(|path| fs::read(path).unwrap()).collect();
    mutations::each(3000, |dice| {
        let original: &Vec<u8> = dice.of_these(&originals);
        let capture = cut(original, dice);
        let how = How { is_reordered: dice.below(4) == 0, is_joined: true };
        try_one(folder.path(), &changed(&capture, dice, &common::INTERESTING), b"", how);
    });
}

/// Those of TLS, whose plaintext is searched for.
#[test]
fn mutated_captures_of_tls_that_are_cut() {
    let folder = tempfile::tempdir().unwrap();
    let read = |(capture, keys)| (fs::read(capture).unwrap(), fs::read(keys).unwrap_or_default());
    let all = common::captures().into_iter().map(read);
    let originals: Vec<(Vec<u8>, Vec<u8>)> = all.filter(|(_, keys)| !keys.is_empty()).collect();
    mutations::each(1000, |dice| {
        let (capture, keys) = dice.of_these(&originals);
        let capture = cut(capture, dice);
        let how = How { is_reordered: dice.below(4) == 0, is_joined: true };
        try_one(folder.path(), &changed(&capture, dice, &common::INTERESTING), keys, how);
    });
}
