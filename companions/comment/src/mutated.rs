//! Mutated captures: no panic, and what is written has the packets of the capture.

use std::fs;
use std::io::{Cursor, Write};
use std::path::{Path, PathBuf};

use captures::{Item, Reader, Source};
use flate2::write::GzEncoder;
use mutations::changed;

use crate::comments::Comments;
use crate::ended::Ended;
use crate::{copied, report};

const INTERESTING: [&[u8]; 6] =
    [b"\x00", b"\xff", b"\xff\xff\xff\xff", b"\x0a\x0d\x0d\x0a", b"\x00\x00\x00\x0c", b"\x06\x00\x00\x00"];

fn source(data: &[u8]) -> Result<Source, Ended> {
    Ok(Source::new(Box::new(Cursor::new(data.to_vec())))?)
}

/// The capture with its comments.
fn commented(capture: &[u8], report: &[u8]) -> Result<(Vec<u8>, u64), Ended> {
    let mut comments = Comments::new(report::findings(report, false)?)?;
    let mut out = Vec::new();
    let copied = copied(source(capture)?, &mut comments, &mut out)?;
    Ok((out, copied.packets))
}

/// Time and bytes of each packet, as far as they can be read.
fn packets(capture: &[u8]) -> Vec<(i64, Vec<u8>)> {
    let mut found = Vec::new();
    if let Ok(mut reader) = source(capture).and_then(|source| Ok(Reader::new(source)?)) {
        while let Ok(Some(item)) = reader.next() {
            if let Item::Packet(packet) = item {
                found.push((packet.nanos, packet.data.to_vec()));
            }
        }
    }
    found
}

/// Captures of both formats, as they stand and packed, each with its report.
fn originals() -> Vec<(Vec<u8>, Vec<u8>)> {
    let examples = Path::new(env!("CARGO_MANIFEST_DIR")).join("../../examples");
    let mut paths: Vec<PathBuf> = fs::read_dir(examples).unwrap().map(|entry| entry.unwrap().path()).collect();
    paths.retain(|path| path.extension().map_or(false, |ending| ending == "pcap"));
    paths.sort();
    let mut found = Vec::new();
    for path in paths {
        let (capture, report) = (fs::read(&path).unwrap(), fs::read(path.with_extension("report")).unwrap());
        let header = report.split_inclusive(|byte| *byte == b'\n').next().unwrap().to_vec();
        let pcapng = commented(&capture, &header).map(|(out, _)| out).unwrap_or_default();
        let mut packed = GzEncoder::new(Vec::new(), flate2::Compression::fast());
        packed.write_all(&capture).unwrap();
        let forms = [capture, pcapng, packed.finish().unwrap()];
        found.extend(forms.into_iter().map(|form| (form, report.clone())));
    }
    assert!(found.len() > 20);
    found
}

#[test]
fn comments_leave_the_packets_as_they_are() {
    for (capture, report) in originals() {
        let (out, count) = commented(&capture, &report).unwrap_or_default();
        assert_eq!(count as usize, packets(&capture).len());
        assert_eq!(packets(&out), packets(&capture));
    }
}

#[test]
fn mutated_captures() {
    let originals = originals();
    mutations::each(10_000, |dice| {
        let (capture, report) = dice.of_these(&originals).clone();
        let capture = changed(&capture, dice, &INTERESTING);
        if let Ok((out, count)) = commented(&capture, &report) {
            let (found, wanted) = (packets(&out), packets(&capture));
            assert!(found.len() <= count as usize);
            assert!(found.starts_with(&wanted) || wanted.starts_with(&found));
        }
    });
}
