//! Mutated reports and maps: no panic, and each line is either read or refused by its number.

use std::fs;
use std::path::{Path, PathBuf};

use mutations::changed;
use reports::maps::{MapError, MapReader};
use reports::{sentence_of, Line, Pairing, ReadError, Reader};

const INTERESTING: [&[u8]; 8] =
    [b"\n", b" ", b"-", b"18446744073709551616", b"connection ", b"frame ", b"\xff", b"record 1 "];

fn top() -> PathBuf {
    Path::new(env!("CARGO_MANIFEST_DIR")).join("../..")
}

fn reports() -> Vec<Vec<u8>> {
    let mut paths: Vec<PathBuf> = ["examples", "tests/tls"]
        .iter()
        .flat_map(|folder| fs::read_dir(top().join(folder)).unwrap())
        .map(|entry| entry.unwrap().path())
        .filter(|path| path.extension().map_or(false, |ending| ending == "report"))
        .collect();
    paths.sort();
    assert!(paths.len() > 20);
    paths.iter().map(|path| fs::read(path).unwrap()).collect()
}

/// Reads a report to its end, or to the first line that is none; and says all that it tells.
fn read(report: &[u8]) -> Result<usize, ReadError> {
    let mut reader = Reader::new(report);
    let (mut notes, mut pairing, mut lines) = (Vec::new(), Pairing::default(), 0);
    while let Some(line) = reader.next_line()? {
        lines += 1;
        match line {
            Line::Opening(_) => pairing.begin(),
            Line::Finding(finding) => {
                assert!(sentence_of(&finding, "").contains(finding.kind.name()));
                pairing.note(finding, &mut notes);
            }
            _ => {}
        }
    }
    for note in &notes {
        let other = note.other.map(|number| &notes[number]);
        assert!(!note.sentence(other, |note| note.packet.to_string(), "").contains('{'));
    }
    Ok(lines)
}

#[test]
fn mutated_reports() {
    let originals = reports();
    for report in &originals {
        assert_eq!(read(report).unwrap(), report.iter().filter(|byte| **byte == b'\n').count());
    }
    mutations::each(20_000, |dice| {
        let report = dice.of_these(&originals).clone();
        let report = changed(&report, dice, &INTERESTING);
        if let Err(ReadError::NoLine(number)) = read(&report) {
            assert!(number >= 2 && number as usize <= 1 + report.iter().filter(|byte| **byte == b'\n').count());
        }
    });
}

#[test]
fn mutated_maps() {
    let mut map = b"h2audit-map 1\nfile 1 some%20where/a.pcap\naddress 240.0.0.1 2001:db8::1\n".to_vec();
    (1..60).for_each(|number| map.extend(format!("record {number} file 1 packet {}\n", number * 3).bytes()));
    map.extend(b"connection client 240.0.0.1:1 server 240.0.0.1:2 file 1 packet 3 clear\nfragments 3\n");
    mutations::each(20_000, |dice| {
        let map = changed(&map, dice, &INTERESTING);
        let mut reader = match MapReader::new(&map[..]) {
            Ok(reader) => reader,
            Err(MapError::Io(error)) => panic!("{error}"),
            Err(_) => return,
        };
        while let Ok(Some(_)) = reader.next_line() {}
    });
}
