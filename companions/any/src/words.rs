//! The command line of h2audit-any.

use std::ffi::OsString;
use std::path::PathBuf;

use lexopt::Arg::{Long, Short, Value};
use programs::{number, wrong, Failure};

use crate::parts::MOST_PARTS;

const MOST_JOBS: u64 = 64;
const MOST_WORKERS: u64 = 64;
const MOST_GROUPS: u64 = 1024;
const MOST_FRAMES: u64 = 1_048_576;

/// What a command line asks for.
pub enum Words {
    Help,
    Version,
    Audit(Audited),
    /// A report on standard input is taken back to the original by this map; and where its rows go.
    Back(PathBuf, Option<PathBuf>),
}

#[derive(Default)]
pub struct Audited {
    pub files: Vec<OsString>,
    pub key_logs: Vec<OsString>,
    pub is_sorted: bool,
    pub is_reordered: bool,
    /// Whether connections that began before the capture are joined.
    pub is_joined: bool,
    /// The words that h2audit gets.
    pub options: Vec<String>,
    pub parts: Option<u64>,
    /// Where the rows of the report go.
    pub rows: Option<PathBuf>,
    pub program: Option<OsString>,
}

pub fn words_of(words: Vec<OsString>) -> Result<Words, Failure> {
    let mut parser = lexopt::Parser::from_args(words);
    let mut asked = Audited::default();
    let (mut map, mut has_frames) = (None, false);
    let (mut workers, mut groups, mut block) = (None, None, None);
    while let Some(word) = parser.next().map_err(wrong)? {
        match word {
            Short('h') | Long("help") => return Ok(Words::Help),
            Short('V') | Long("version") => return Ok(Words::Version),
            Short('k') | Long("key-log") => asked.key_logs.push(parser.value().map_err(wrong)?),
            Short('j') | Long("jobs") => {
                count(&mut parser, "-j/--jobs", MOST_JOBS)?;
            }
            Long("sort") => asked.is_sorted = true,
            Long("reorder") => asked.is_reordered = true,
            Long("joined") => asked.is_joined = true,
            Long("workers") => workers = Some(count(&mut parser, "--workers", MOST_WORKERS)?),
            Long("groups") => groups = Some(count(&mut parser, "--groups", MOST_GROUPS)?),
            Long("block") => block = Some(count(&mut parser, "--block", MOST_FRAMES)?),
            Long("frames") => has_frames = true,
            Long("parts") => asked.parts = Some(count(&mut parser, "--parts", MOST_PARTS)?),
            Long("rows") => asked.rows = Some(PathBuf::from(parser.value().map_err(wrong)?)),
            Long("map") => map = Some(PathBuf::from(parser.value().map_err(wrong)?)),
            Long("h2audit") => asked.program = Some(parser.value().map_err(wrong)?),
            Value(file) => asked.files.push(file),
            other => return Err(wrong(other.unexpected())),
        }
    }
    for (name, value) in [("--workers", workers), ("--groups", groups), ("--block", block)] {
        asked.options.extend(value.map(|value| format!("{name}={value}")));
    }
    asked.options.extend(has_frames.then(|| "--frames".to_string()));
    match map {
        _ if asked.rows.as_deref().map_or(false, |rows| rows.as_os_str() == "-") => {
            Err(Failure::Usage("--rows takes a file: the report goes to standard output".to_string()))
        }
        None => Ok(Words::Audit(asked)),
        Some(map) if asked.is_empty() => Ok(Words::Back(map, asked.rows)),
        Some(_) => Err(Failure::Usage("--map takes a report on standard input, and no option but --rows".to_string())),
    }
}

impl Audited {
    fn is_empty(&self) -> bool {
        let has_words = !self.files.is_empty() || !self.key_logs.is_empty() || !self.options.is_empty();
        let has_reading = self.is_sorted || self.is_reordered || self.is_joined;
        !has_words && !has_reading && self.parts.is_none() && self.program.is_none()
    }
}

fn count(parser: &mut lexopt::Parser, name: &str, most: u64) -> Result<u64, Failure> {
    number(name, &parser.value().map_err(wrong)?, 1, most)
}
