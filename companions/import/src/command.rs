//! h2audit-import: writes a capture that h2audit reads, and a map back to the original.

use std::ffi::OsString;
use std::fs;
use std::path::{Path, PathBuf};

use captures::{Error, Item, Reader, Source};
use programs::{end_cleanly, is_special, print, printable, say, Failure, Outcome, Output};

use crate::importing::{imported, ImportOptions};
use crate::map_file::MapFile;
use crate::outcomes::Summary;
use crate::sink::Sink;
use crate::words::{words_of, Import, Words};

pub const NAME: &str = "h2audit-import";
const HELP: &str = include_str!("help.txt");
const VERSION: &str = concat!("h2audit-import ", env!("CARGO_PKG_VERSION"), "\n");
/// The status where no connection could be read.
const NOTHING_READ: i32 = 6;

pub fn main(words: Vec<OsString>) -> Outcome {
    match words_of(words)? {
        Words::Help => print(HELP),
        Words::Version => print(VERSION),
        Words::Import(asked) => {
            look_for_same_files(&asked)?;
            end_cleanly().map_err(|error| Failure::from_io("signals", &error))?;
            import(&asked)
        }
    }
}

fn look_for_same_files(asked: &Import) -> Result<(), Failure> {
    match &asked.map {
        Some(map) if is_same_file(&asked.output, map) => {
            Err(Failure::Usage("OUT.pcap and MAP are the same file".to_string()))
        }
        _ => Ok(()),
    }
}

/// Whether what is written to either would replace the other.
fn is_same_file(one: &Path, other: &Path) -> bool {
    real_path(one) == real_path(other) && !is_special(one).unwrap_or(false)
}

fn real_path(path: &Path) -> PathBuf {
    let folder = path.parent().filter(|folder| !folder.as_os_str().is_empty()).unwrap_or_else(|| Path::new("."));
    fs::canonicalize(path).unwrap_or_else(|_| match (fs::canonicalize(folder), path.file_name()) {
        (Ok(folder), Some(name)) => folder.join(name),
        _ => path.to_path_buf(),
    })
}

fn import(asked: &Import) -> Outcome {
    let files = if asked.is_sorted { sorted(&asked.files)? } else { asked.files.clone() };
    let mut output = Output::begin_private(&asked.output)?;
    let mut map = asked.map.as_deref().map(Output::begin_private).transpose()?;
    let summary = made(asked, &files, &mut output, map.as_mut())?;
    summary.times_go_back().iter().for_each(|words| say(NAME, words));
    output.finish()?;
    map.map_or(Ok(()), Output::finish)?;
    if summary.read() > 0 {
        return Ok(0);
    }
    say(NAME, "no connection could be read");
    Ok(NOTHING_READ)
}

fn made(asked: &Import, files: &[OsString], output: &mut Output, map: Option<&mut Output>) -> Result<Summary, Failure> {
    let can_repeat = [Some(&asked.output), asked.map.as_ref()]
        .into_iter()
        .flatten()
        .all(|path| path.as_os_str() != "-" && !is_special(path).unwrap_or(true));
    let mut map = MapFile::new(map, asked.is_joined);
    let mut sink = Sink::new(output, &mut map)?;
    let Import { key_logs, is_reordered, is_joined, bounds, .. } = asked;
    let (is_reordered, is_joined, bounds) = (*is_reordered, *is_joined, *bounds);
    let asked = ImportOptions { program: NAME, files, key_logs, is_reordered, is_joined, bounds, can_repeat };
    imported(&asked, &mut sink, None)
}

/// The files in the order of their first packets; those without any come last.
pub fn sorted(files: &[OsString]) -> Result<Vec<OsString>, Failure> {
    let mut dated = Vec::new();
    for path in files {
        if !Source::can_be_read_twice(path).map_err(|error| Failure::of_file(path, &error))? {
            return Err(Failure::Usage(format!("--sort takes files alone, and {} is none", printable(path))));
        }
        dated.push((first_time(path)?, path));
    }
    dated.sort_by_key(|(time, _)| (time.is_none(), *time));
    Ok(dated.into_iter().map(|(_, path)| path.clone()).collect())
}

fn first_time(path: &OsString) -> Result<Option<i64>, Failure> {
    let first = || -> Result<Option<i64>, Error> {
        let mut reader = Reader::new(Source::open(path)?)?;
        while let Some(item) = reader.next()? {
            if let Item::Packet(packet) = item {
                if packet.link.is_some() {
                    return Ok(Some(packet.nanos));
                }
            }
        }
        Ok(None)
    };
    match first() {
        Err(Error::Io(error)) => Err(Failure::of_file(path, &error)),
        Err(Error::Refused(_)) => Ok(None), // the import itself names the refusal
        Ok(time) => Ok(time),
    }
}
