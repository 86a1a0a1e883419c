//! The command line of h2audit-import.

use std::ffi::OsString;
use std::path::PathBuf;

use lexopt::Arg::{Long, Short, Value};
use programs::{missing, number, wrong, Failure};

use crate::bounds::Bounds;

const MOST_JOBS: u64 = 64;
/// Records of one connection, and a day.
const MOST_NUMBERS: u64 = 1 << 40;
const MOST_SECONDS: u64 = 86_400;

/// What a command line asks for.
pub enum Words {
    Help,
    Version,
    Import(Import),
}

pub struct Import {
    pub files: Vec<OsString>,
    pub key_logs: Vec<OsString>,
    pub output: PathBuf,
    pub map: Option<PathBuf>,
    pub is_sorted: bool,
    pub is_reordered: bool,
    pub is_joined: bool,
    pub bounds: Bounds,
}

pub fn words_of(words: Vec<OsString>) -> Result<Words, Failure> {
    let mut parser = lexopt::Parser::from_args(words);
    let (mut files, mut key_logs) = (Vec::new(), Vec::new());
    let (mut is_sorted, mut is_reordered, mut is_joined) = (false, false, false);
    let (mut output, mut map, mut bounds) = (None, None, Bounds::default());
    while let Some(word) = parser.next().map_err(wrong)? {
        match word {
            Short('h') | Long("help") => return Ok(Words::Help),
            Short('V') | Long("version") => return Ok(Words::Version),
            Short('k') | Long("key-log") => key_logs.push(parser.value().map_err(wrong)?),
            Short('o') | Long("output") => output = Some(PathBuf::from(parser.value().map_err(wrong)?)),
            Short('m') | Long("map") => map = Some(PathBuf::from(parser.value().map_err(wrong)?)),
            Long("sort") => is_sorted = true,
            Long("reorder") => is_reordered = true,
            Long("joined") => is_joined = true,
            Long("join-numbers") => {
                bounds.numbers = number("--join-numbers", &parser.value().map_err(wrong)?, 1, MOST_NUMBERS)?;
            }
            Long("join-seconds") => {
                bounds.seconds = number("--join-seconds", &parser.value().map_err(wrong)?, 0, MOST_SECONDS)?;
            }
            Short('j') | Long("jobs") => {
                number("-j/--jobs", &parser.value().map_err(wrong)?, 1, MOST_JOBS)?;
            }
            Value(file) => files.push(file),
            other => return Err(wrong(other.unexpected())),
        }
    }
    let output = output.ok_or_else(|| missing(&["-o/--output"]))?;
    Ok(Words::Import(Import { files, key_logs, output, map, is_sorted, is_reordered, is_joined, bounds }))
}
