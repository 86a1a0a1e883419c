//! Takes findings to the packets that completed their records, by the map of an import (docs/MAP.md).

use std::collections::{BTreeMap, HashMap, HashSet};
use std::ffi::OsStr;
use std::io::BufRead;
use std::os::unix::ffi::OsStrExt;
use std::path::{Path, PathBuf};
use std::{env, fs};

use programs::printable;
use reports::maps::{MapLine, MapReader};

use crate::comments::Findings;
use crate::ended::Ended;
use crate::windows::Packet;

/// So many files are named where the capture is none of them.
const NAMED: usize = 8;

/// The files of a map, and of the records that are asked for the file and the packet.
#[derive(Default)]
struct ImportMap {
    files: BTreeMap<u64, Vec<u8>>,
    records: HashMap<u64, (u64, u64)>,
}

/// Takes each finding to its packet, and answers how many are about another file than the capture.
pub fn place(findings: &mut Findings, source: impl BufRead, capture: &Path) -> Result<u64, Ended> {
    let wanted: HashSet<u64> = findings
        .notes
        .iter()
        .map(|note| note.packet)
        .chain(findings.setters.values().flat_map(|setters| setters.last.iter().map(|packet| packet.number)))
        .collect();
    let map = read(source, &wanted)?;
    let here = file_of(&map.files, capture)?;
    let mut elsewhere = 0;
    for note in &mut findings.notes {
        let (file, packet) = map.packet_of(note.packet)?;
        note.packet = packet;
        if file != here {
            note.file = Some(file);
            elsewhere += 1;
        }
    }
    for packet in findings.setters.values_mut().flat_map(|setters| &mut setters.last) {
        let (file, number) = map.packet_of(packet.number)?;
        *packet = Packet { number, file: (file != here).then_some(file) };
    }
    findings.files = map.files.into_iter().collect();
    Ok(elsewhere)
}

/// Lines of other first words are passed over.
fn read(source: impl BufRead, wanted: &HashSet<u64>) -> Result<ImportMap, Ended> {
    let mut reader = MapReader::new(source)?;
    let mut map = ImportMap::default();
    while let Some(line) = reader.next_line()? {
        match line {
            MapLine::Record { number, file, packet } if wanted.contains(&number) => {
                map.records.insert(number, (file, packet));
            }
            MapLine::File { number, path } => {
                map.files.insert(number, path);
            }
            _ => {}
        }
    }
    Ok(map)
}

impl ImportMap {
    fn packet_of(&self, record: u64) -> Result<(u64, u64), Ended> {
        let found = self.records.get(&record).copied();
        found.ok_or_else(|| Ended::map_refused(format!("it has no record {record}, which the report names")))
    }
}

/// The number of the capture among the files of a map: the only one, or the one of its path or of its name.
fn file_of(files: &BTreeMap<u64, Vec<u8>>, capture: &Path) -> Result<u64, Ended> {
    if let (1, Some(only)) = (files.len(), files.keys().next()) {
        return Ok(*only);
    }
    let forms: [fn(&Path) -> PathBuf; 2] = [real_path, |path| path.file_name().unwrap_or_default().into()];
    for form in forms {
        let wanted = form(capture);
        let mut same = files.iter().filter(|(_, path)| form(Path::new(OsStr::from_bytes(path))) == wanted);
        if let (Some((number, _)), None) = (same.next(), same.next()) {
            return Ok(*number);
        }
    }
    let names: Vec<String> = files.values().take(NAMED).map(|path| printable(OsStr::from_bytes(path))).collect();
    let names = if names.is_empty() { "it has none".to_string() } else { names.join(", ") };
    Err(Ended::map_refused(format!("{} is not one of its files by name: {names}", printable(capture))))
}

/// Where a path leads, also if nothing is there.
fn real_path(path: &Path) -> PathBuf {
    fs::canonicalize(path).unwrap_or_else(|_| env::current_dir().unwrap_or_default().join(path))
}
