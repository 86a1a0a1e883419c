//! Merges the reports of the parts that h2audit-split made into the report of the whole.

#![forbid(unsafe_code)]

mod connections;
mod merging;
mod part_report;
mod part_segments;
mod record_numbers;
mod split_folder;
mod stray_pairs;

use std::ffi::OsString;
use std::io;
use std::path::PathBuf;

use lexopt::Arg::{Long, Short, Value};
use programs::{missing, print, run, wrong, Failure, Outcome, Output};

use merging::{merge_reports, MergeError};
use split_folder::SplitFolder;

const NAME: &str = "h2audit-merge";
const HELP: &str = include_str!("help.txt");
const VERSION: &str = concat!("h2audit-merge ", env!("CARGO_PKG_VERSION"), "\n");

enum Asked {
    Text(&'static str),
    Merge { folder: PathBuf, only_standing: bool },
}

fn asked(words: Vec<OsString>) -> Result<Asked, Failure> {
    let mut parser = lexopt::Parser::from_args(words);
    let (mut folder, mut only_standing) = (None, false);
    while let Some(word) = parser.next().map_err(wrong)? {
        match word {
            Long("standing") => only_standing = true,
            Short('h') | Long("help") => return Ok(Asked::Text(HELP)),
            Short('V') | Long("version") => return Ok(Asked::Text(VERSION)),
            Value(word) if folder.is_none() => folder = Some(PathBuf::from(word)),
            other => return Err(wrong(other.unexpected())),
        }
    }
    let folder = folder.ok_or_else(|| missing(&["DIR"]))?;
    Ok(Asked::Merge { folder, only_standing })
}

/// Merges, and answers h2audit's status of the whole.
fn merge(folder: PathBuf, only_standing: bool) -> Outcome {
    // Each part takes up to three open files. Where the system allows no more, opening one fails and is told.
    let _ = rlimit::increase_nofile_limit(u64::MAX);
    let mut reports = SplitFolder::open(&folder, only_standing)?;
    let mut output = Output::standard()?;
    let merged = merge_reports(&mut reports, &mut output);
    let has_faults = merged.map_err(|error| match error {
        MergeError::Part(failure) => failure,
        MergeError::Write(error) => write_failure(&error),
    })?;
    io::Write::flush(&mut output).map_err(|error| write_failure(&error))?;
    Ok(i32::from(has_faults))
}

fn write_failure(error: &io::Error) -> Failure {
    match error.kind() {
        io::ErrorKind::BrokenPipe => Failure::Unread,
        _ => Failure::Io(format!("{}: standard output", programs::io_reason(error))),
    }
}

fn main() {
    run(NAME, |words| match asked(words)? {
        Asked::Text(text) => print(text),
        Asked::Merge { folder, only_standing } => merge(folder, only_standing),
    })
}
