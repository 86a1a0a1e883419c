//! The report of h2audit on what was made, of a run of it or one that is there; and the report on the original.

use std::ffi::OsStr;
use std::fs::File;
use std::io::{self, BufReader, Read, Seek};
use std::path::Path;
use std::process::Stdio;

use import::{MadeCapture, RecordsOf};
use originals::{bring_back, no_report, Original};
use programs::{auditor, printable, temporary_failure, Audit as Running, Failure, Output, H2AUDIT};
use reports::ReadError;

use crate::answer::{Answer, Certainty, ConnectionSaid};
use crate::audit::{of_h2audit, read_audits, Audits};

/// So much is read of what h2audit said.
const MOST_SAID: u64 = 1 << 16;

/// What the report of the original shows, and what is said of connections that are not in it, as a status says it.
#[derive(Clone, Debug, Default, PartialEq, Eq)]
pub struct Reported {
    pub has_faults: bool,
    pub is_nothing_read: bool,
    /// What is to be said of times that go back.
    pub back: Option<String>,
    /// What was passed over that may hold more, or that nothing was read.
    pub words: Option<String>,
}

/// Where the report of the original goes, which is h2audit-any's: as rows, and as text where that is wanted.
pub struct ReportTo<'a> {
    pub rows: &'a mut Output,
    pub text: Option<&'a mut Output>,
}

/// The connections of a report that is there, which may be of some parts alone.
pub fn read_report(path: &Path) -> Result<Audits, Failure> {
    let file = File::open(path).map_err(|error| Failure::of_file(path, &error))?;
    read_audits(BufReader::new(file), &RecordsOf::same(), |error| match error {
        ReadError::Io(error) => Failure::from_io("report", &error),
        other => Failure::Refused(format!("report refused: {other}")),
    })
}

/// The connections of the report of what was made. It goes into a file too where that is wanted.
pub fn audited(
    program: &OsStr,
    options: &[String],
    capture: &mut MadeCapture,
    copy: Option<&mut File>,
) -> Result<Audits, Failure> {
    let (path, records) = (capture.path()?, &capture.records());
    let mut said = tempfile::tempfile().map_err(|error| temporary_failure(&error))?;
    let errors = said.try_clone().map_err(|error| temporary_failure(&error))?;
    let mut command = auditor(program, options);
    let Running { mut report, running } = Running::of(command.arg(path).stderr(Stdio::from(errors)))?;
    let read = match copy {
        None => read_audits(report, records, of_h2audit),
        Some(file) => copied(&mut report, file).and_then(|()| read_audits(BufReader::new(&*file), records, of_h2audit)),
    };
    match running.status()? {
        0 | 1 => read,
        status => Err(failure_of(status, &last_words(&mut said).map_err(|error| temporary_failure(&error))?)),
    }
}

/// What a program said last, without its name in front.
fn last_words(said: &mut File) -> io::Result<String> {
    let mut octets = Vec::new();
    said.rewind()?;
    said.take(MOST_SAID).read_to_end(&mut octets)?;
    let text = String::from_utf8_lossy(&octets);
    let last = text.trim().lines().last().unwrap_or_default();
    Ok(match last.split_once(": ") {
        Some((name, words)) if name.starts_with(H2AUDIT) => words.to_string(),
        _ => last.to_string(),
    })
}

/// What ended h2audit, in its own words where it had some.
fn failure_of(status: i32, said: &str) -> Failure {
    let said = if said.is_empty() { format!("{H2AUDIT}: failed") } else { printable(said) };
    match status {
        2 => Failure::Usage(said),
        3 => Failure::Refused(said),
        5 => Failure::Memory,
        _ => Failure::Io(said),
    }
}

fn copied(report: &mut impl io::Read, file: &mut File) -> Result<(), Failure> {
    let begun = file.rewind().and_then(|()| file.set_len(0));
    let done = begun.and_then(|()| io::copy(report, file)).and_then(|_| file.rewind());
    done.map_err(|error| temporary_failure(&error))
}

/// Writes the report of the original. Connections of which something is inferred are not in it: of them the answer
/// counts.
pub fn of_original(
    mut report: File,
    original: &mut Original,
    answer: &Answer,
    to: ReportTo<'_>,
) -> Result<Reported, Failure> {
    report.rewind().map_err(|error| temporary_failure(&error))?;
    let (report, ReportTo { rows, text }) = (BufReader::new(report), to);
    let written = match text {
        Some(text) => bring_back(report, original, text, Some(rows)).map_err(|broken| broken.failure(text, Some(rows))),
        None => bring_back(report, original, &mut io::sink(), Some(rows)).map_err(|broken| broken.failure(rows, None)),
    };
    let shown = written?;
    if !shown.is_there {
        return Err(no_report());
    }
    let mut inferred = answer.audited().filter(|one| one.is_inferred()).peekable();
    let is_nothing_read = !shown.has_faults && original.read() == 0 && inferred.peek().is_none();
    let has_fault = |one: &ConnectionSaid| one.faults.iter().any(|fault| fault.certainty != Certainty::Joined);
    Ok(Reported {
        has_faults: shown.has_faults || inferred.any(has_fault),
        is_nothing_read,
        back: original.back.take(),
        words: original.passed_over_words(is_nothing_read),
    })
}
