//! The folder that h2audit-split makes: its summary, and for each part a capture, numbers of records and a report.

use std::collections::BTreeSet;
use std::fs::File;
use std::io::{self, Read};
use std::path::{Component, Path, PathBuf};

use programs::{io_reason, printable, Failure};

use crate::part_report::PartReport;
use crate::record_numbers::RecordNumbers;

const SUMMARY: &str = "split.txt";
const FIRST_LINE: &str = "h2audit-split 1";
const MOST_PARTS: u64 = 500;
/// More bytes than all lines of a summary have.
const SUMMARY_SIZE: u64 = 65_536;

/// The reports of a folder's parts.
pub struct SplitFolder;

impl SplitFolder {
    /// Opens the reports of all parts, or of those alone that h2audit-split did not refuse.
    pub fn open(folder: &Path, only_standing: bool) -> Result<Vec<PartReport>, Failure> {
        let folder = plain(folder);
        let (count, refused) = read_summary(&folder)?;
        match refused.iter().next() {
            Some(first) if !only_standing => Err(Failure::Refused(format!(
                "part {first} was refused by h2audit-split; --standing merges the others"
            ))),
            Some(_) if refused.len() as u64 == count => {
                Err(Failure::Refused("every part was refused by h2audit-split".to_string()))
            }
            _ => (1..=count)
                .filter(|number| !refused.contains(number))
                .map(|number| open_part(&folder, number))
                .collect(),
        }
    }
}

/// A file of this name could not be read.
pub fn failed(path: &Path, error: &io::Error) -> Failure {
    Failure::Io(format!("{}: {}", io_reason(error), printable(path)))
}

/// The path without steps that lead nowhere.
fn plain(folder: &Path) -> PathBuf {
    let plain: PathBuf = folder.components().filter(|step| *step != Component::CurDir).collect();
    if plain.as_os_str().is_empty() {
        PathBuf::from(".")
    } else {
        plain
    }
}

/// How many parts there are, and which of them are refused.
fn read_summary(folder: &Path) -> Result<(u64, BTreeSet<u64>), Failure> {
    let path = folder.join(SUMMARY);
    let mut text = Vec::new();
    let read = File::open(&path).and_then(|file| file.take(SUMMARY_SIZE).read_to_end(&mut text));
    match read {
        Err(error) if error.kind() == io::ErrorKind::NotFound => {
            return Err(Failure::Refused(format!("{}: no {SUMMARY}, so no split ended there", printable(folder))));
        }
        Err(error) => return Err(failed(&path, &error)),
        Ok(_) => {}
    }
    summary_of(&String::from_utf8_lossy(&text))
        .ok_or_else(|| Failure::Refused(format!("{} is no summary of h2audit-split", printable(&path))))
}

fn summary_of(text: &str) -> Option<(u64, BTreeSet<u64>)> {
    let mut lines = text.lines();
    let first = lines.next()?;
    let count = lines.next()?.strip_prefix("parts ")?.parse().ok()?;
    if first != FIRST_LINE || !(1..=MOST_PARTS).contains(&count) {
        return None;
    }
    let mut refused = BTreeSet::new();
    for line in lines {
        let mut words = line.split(' ');
        let (_, number, said) = (words.next()?, words.next()?, words.next()?);
        if said == "refused" {
            refused.insert(number.parse().ok()?);
        }
    }
    Some((count, refused))
}

/// The report of a part, with the numbers of its records.
fn open_part(folder: &Path, number: u64) -> Result<PartReport, Failure> {
    let path = |kind: &str| folder.join(format!("part-{number:03}.{kind}"));
    for kind in ["report", "records", "pcap"] {
        if !path(kind).is_file() {
            return Err(Failure::Refused(format!("{} is missing", printable(path(kind)))));
        }
    }
    PartReport::open(path("report"), path("pcap"), RecordNumbers::open(&path("records"))?)
}
