//! Imports captures, audits what is made by h2audit, and prints the report of the original.

#![forbid(unsafe_code)]

mod parts;
mod read_map;
mod words;

use std::ffi::{OsStr, OsString};
use std::io::{BufRead, BufReader, Write};
use std::path::Path;

use import::{Bounds, MadeCapture, Sink};
use originals::{bring_back, no_report, Keeping, Original, Shown};
use programs::{end_cleanly, print, program_named, run, say, Audit, Failure, Input, Outcome, Output, Progress};

use parts::PartPrograms;
use words::{words_of, Audited, Words};

const NAME: &str = "h2audit-any";
const HELP: &str = include_str!("help.txt");
const VERSION: &str = concat!("h2audit-any ", env!("CARGO_PKG_VERSION"), "\n");
const NO_FAULTS: i32 = 0;
const FAULTS: i32 = 1;
const CAPTURE_REFUSED: i32 = 3;
const NOTHING_READ: i32 = 6;
/// So many bytes of a report are read at a time.
const BUFFER: usize = 1 << 18;

fn any(words: Vec<OsString>) -> Outcome {
    let asked = match words_of(words)? {
        Words::Help => return print(HELP),
        Words::Version => return print(VERSION),
        other => other,
    };
    end_cleanly().map_err(|error| Failure::from_io("signals", &error))?;
    match asked {
        Words::Back(map, rows) => of_original(&map, rows.as_deref()),
        Words::Audit(asked) => audited(&asked),
        Words::Help | Words::Version => Ok(NO_FAULTS),
    }
}

/// Prints a report that stands on standard input, of what was imported with a map, as one of the original.
fn of_original(map: &Path, rows: Option<&Path>) -> Outcome {
    let mut original = read_map::read_map(map)?;
    let input = BufReader::with_capacity(BUFFER, Input::open(Path::new("-"))?);
    let mut rows = rows.map(Output::begin).transpose()?;
    let shown = write(input, &mut original, rows.as_mut())?;
    if !shown.is_there {
        return Err(no_report());
    }
    rows.map_or(Ok(()), Output::finish)?;
    say_back(&original);
    Ok(ending(&original, status_of(&shown)))
}

fn status_of(shown: &Shown) -> i32 {
    match shown.has_faults {
        true => FAULTS,
        false => NO_FAULTS,
    }
}

/// Imports, audits, and prints the report of the original.
fn audited(asked: &Audited) -> Outcome {
    let program = program_named(asked.program.clone())?;
    let part_programs = asked.parts.map(|parts| PartPrograms::find().map(|found| (found, parts))).transpose()?;
    let files = if asked.is_sorted { import::sorted(&asked.files)? } else { asked.files.clone() };
    let may_stand = part_programs.is_none() && !asked.is_reordered;
    let (mut made, mut original) = made_of(asked, &files, may_stand)?;
    say_back(&original);
    let mut rows = asked.rows.as_deref().map(Output::begin).transpose()?;
    let status = match part_programs {
        None => {
            let mut audit = begun(&program, &asked.options, &mut made)?;
            if made.has_changed() {
                drop(audit);
                (made, original) = made_of(asked, &files, false)?;
                audit = begun(&program, &asked.options, &mut made)?;
            }
            of_audit("auditing", audit, &mut original, rows.as_mut())?
        }
        Some((found, parts)) => {
            let parts = found.audit(&program, &asked.options, parts, &made.path()?)?;
            match of_audit("merging", parts.merging, &mut original, rows.as_mut())? {
                status if status > FAULTS => return Err(parts::as_ours(parts::MERGE, status, "")),
                _ if !parts.is_whole => CAPTURE_REFUSED,
                status => status,
            }
        }
    };
    if status <= FAULTS || asked.parts.is_some() {
        rows.map_or(Ok(()), Output::finish)?;
    }
    Ok(ending(&original, status))
}

/// Makes the capture that is audited, for which the original may stand, and what brings its report back to that.
fn made_of(asked: &Audited, files: &[OsString], may_stand: bool) -> Result<(MadeCapture, Original), Failure> {
    let mut made = MadeCapture::new(files, may_stand)?;
    let mut keeping = Keeping::default();
    keeping.shows_joined = asked.is_joined;
    let mut sink = Sink::new(&mut made, &mut keeping)?;
    let Audited { key_logs, is_reordered, is_joined, .. } = asked;
    let (is_reordered, is_joined, bounds) = (*is_reordered, *is_joined, Bounds::default());
    let import =
        import::ImportOptions { program: NAME, files, key_logs, is_reordered, is_joined, bounds, can_repeat: true };
    import::imported(&import, &mut sink, None)?;
    drop(sink);
    keeping.original.is_audited = made.is_original();
    Ok((made, keeping.original))
}

/// An audit that has read all, unless it failed. That comes again where the report is read.
fn begun(program: &OsStr, options: &[String], made: &mut MadeCapture) -> Result<Audit, Failure> {
    let _progress = Progress::begin(NAME, "auditing", None);
    let mut audit = Audit::start(program, options, &made.path()?)?;
    // Its first bytes come once all is read.
    let _ = audit.report.fill_buf();
    Ok(audit)
}

/// Prints the report of an audit, and answers the status of what audits.
fn of_audit(
    doing: &'static str,
    mut audit: Audit,
    original: &mut Original,
    rows: Option<&mut Output>,
) -> Result<i32, Failure> {
    let _progress = Progress::begin(NAME, doing, None);
    // Its first bytes come once all is read, and nothing is written before. An error comes again where it is read.
    let _ = audit.report.fill_buf();
    let shown = match write(audit.report, original, rows) {
        Ok(shown) => shown,
        Err(failure) => {
            // A program that a signal ends in the middle of a line has said no report.
            if let Some(status) = audit.running.ended()? {
                audit.running.code(status)?;
            }
            return Err(failure);
        }
    };
    match audit.running.status()? {
        NO_FAULTS | FAULTS if !shown.is_there => Err(no_report()),
        // What is not claimed of connections that are joined is no fault.
        NO_FAULTS | FAULTS => Ok(status_of(&shown)),
        status => Ok(status),
    }
}

/// Prints a report, each line about the original, and writes its rows.
fn write(report: impl BufRead, original: &mut Original, mut rows: Option<&mut Output>) -> Result<Shown, Failure> {
    let mut output = Output::standard()?;
    let written = bring_back(report, original, &mut output, rows.as_mut().map(|rows| *rows as &mut dyn Write));
    let shown = written.map_err(|broken| broken.failure(&output, rows.as_deref()))?;
    output.finish().map(|()| shown)
}

/// Says that times go back, where they do.
fn say_back(original: &Original) {
    original.back.iter().for_each(|words| say(NAME, words));
}

/// The last line: whether anything could be read, and what was passed over that may hold more.
fn ending(original: &Original, status: i32) -> i32 {
    let is_nothing_read = status == NO_FAULTS && original.read() == 0;
    original.passed_over_words(is_nothing_read).iter().for_each(|words| say(NAME, words));
    if is_nothing_read {
        NOTHING_READ
    } else {
        status
    }
}

fn main() {
    run(NAME, any)
}
