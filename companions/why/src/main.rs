//! Says why a request was slow or broken: which one stood still, for what share of its life, and because of whom.

#![forbid(unsafe_code)]

mod terminal;
mod words;

use std::ffi::OsString;
use std::fs::File;
use std::io;
use std::path::Path;

use explain::answer::Answer;
use explain::{ReportTo, Reported};
use programs::{end_cleanly, print, printable, run, say, Failure, Outcome, Output, BUFFER};
use why::compare::Compared;
use why::ends::{Apart, Joined};
use why::{Form, Judged, Look, Whole};

use words::{words_of, Asked, Asks, Captures, Colours, LegsAsked, Words};

const NAME: &str = "h2audit-why";
const HELP: &str = include_str!("help.txt");
const VERSION: &str = concat!("h2audit-why ", env!("CARGO_PKG_VERSION"), "\n");
const DONE: i32 = 0;
const FAILED: i32 = 1;
const NOTHING_AUDITED: i32 = 6;

fn why(words: Vec<OsString>) -> Outcome {
    let asked = match words_of(words)? {
        Words::Help => return print(HELP),
        Words::Version => return print(VERSION),
        Words::Why(asked) => asked,
    };
    end_cleanly().map_err(|error| Failure::from_io("signals", &error))?;
    match &asked.captures {
        Captures::One(files) => of_one(&asked, files),
        Captures::Compare([before, after]) => compared(&asked, before, after),
        Captures::Ends([client, server]) => of_both_ends(&asked, client, server),
    }
}

fn of_one(asked: &Asked, files: &[OsString]) -> Outcome {
    let form = match &asked.form {
        Asks::Rows(file) => return rows(asked, files, file),
        Asks::Windows(report) => return windows(report),
        Asks::Document => Form::Document,
        Asks::Charts => Form::Charts,
        Asks::Lines => Form::Lines,
        Asks::Text => Form::Text(look_of(asked)),
    };
    let answer = answered(asked, files)?;
    let whole = Whole::new(&answer);
    let done = ended(asked, &[&whole], vec![judged(asked, &whole)], |to| why::write(&whole, form, to));
    // The process ends, and takes all of it back at once.
    std::mem::forget(whole);
    std::mem::forget(answer);
    done
}

/// The charts of a report that is there.
fn windows(report: &Path) -> Outcome {
    let said = match report == Path::new("-") {
        true => explain::read_charts(io::stdin().lock())?,
        false => {
            let file = File::open(report).map_err(|error| Failure::of_file(report, &error))?;
            explain::read_charts(io::BufReader::with_capacity(BUFFER, file))?
        }
    };
    written(Path::new("-"), |to| why::write_report(&said, to)).map(|()| DONE)
}

/// Writes the rows of the report of the original, and of what it means. The status is that of h2audit-any, or 1 where a
/// connection that began before the capture has a fault that is certain.
fn rows(asked: &Asked, files: &[OsString], file: &Path) -> Outcome {
    let files = in_order(asked, files)?;
    let mut rows = Output::begin(file)?;
    let mut report = asked.report.as_deref().map(Output::begin).transpose()?;
    let to = ReportTo { rows: &mut rows, text: report.as_mut() };
    let (answer, reported) = explain::answer_with_report(&explained(asked, &files), to)?;
    let written = why::write(&Whole::new(&answer), Form::Rows, &mut rows);
    written.map_err(|error| rows.failure(&error))?;
    rows.finish()?;
    report.map_or(Ok(()), Output::finish)?;
    reported.back.iter().chain(&reported.words).for_each(|words| say(NAME, words));
    Ok(match reported {
        Reported { is_nothing_read: true, .. } => NOTHING_AUDITED,
        Reported { has_faults: true, .. } => FAILED,
        Reported { .. } => DONE,
    })
}

/// The capture after the change may fail the run.
fn compared(asked: &Asked, before: &OsString, after: &OsString) -> Outcome {
    let (before, after) = (answered_file(asked, before)?, answered_file(asked, after)?);
    let (before, after) = (Whole::new(&before), Whole::new(&after));
    let both = Compared::new(&before, &after);
    let judged = vec![judged(asked, &after)];
    ended(asked, &[&before, &after], judged, |to| why::write_compared(&both, look_of_two(asked), to))
}

/// Both captures may fail the run.
fn of_both_ends(asked: &Asked, client: &OsString, server: &OsString) -> Outcome {
    let (client, server) = (answered_file(asked, client)?, answered_file(asked, server)?);
    let (client, server) = (Whole::new(&client), Whole::new(&server));
    let found = match Joined::new(&client, &server) {
        Ok(found) => found,
        Err(Apart::Refused(reason)) => return Err(Failure::Refused(printable(reason))),
        Err(Apart::Nothing(reason)) => {
            say(NAME, &printable(reason));
            return Ok(NOTHING_AUDITED);
        }
    };
    let mut judged = vec![judged(asked, &client), judged(asked, &server)];
    if asked.junit.is_some() {
        for ((one, said), whose) in judged.iter_mut().zip(why::by_place(&found)).zip(["client's ", "server's "]) {
            one.said = said;
            one.whose = whose;
        }
    }
    ended(asked, &[&client, &server], judged, |to| why::write_joined(&found, look_of_two(asked), to))
}

fn answered_file(asked: &Asked, file: &OsString) -> Result<Answer, Failure> {
    answered(asked, std::slice::from_ref(file))
}

fn answered(asked: &Asked, files: &[OsString]) -> Result<Answer, Failure> {
    let files = in_order(asked, files)?;
    explain::answer_of(&explained(asked, &files))
}

fn in_order(asked: &Asked, files: &[OsString]) -> Result<Vec<OsString>, Failure> {
    if asked.is_sorted {
        import::sorted(files)
    } else {
        Ok(files.to_vec())
    }
}

/// What is to be explained.
fn explained<'a>(asked: &'a Asked, files: &'a [OsString]) -> explain::ExplainOptions<'a> {
    explain::ExplainOptions {
        program: NAME,
        files,
        key_logs: &asked.key_logs,
        is_reordered: asked.is_reordered,
        is_joined: asked.is_joined,
        h2audit: asked.program.clone(),
        options: &asked.options,
        report: asked.audit.as_deref(),
        has_names: asked.has_names,
        has_query: asked.has_query,
        has_spans: asked.trace.is_some() || matches!(asked.form, Asks::Document | Asks::Charts | Asks::Lines),
        has_frames: matches!(asked.captures, Captures::Ends(_)),
        has_charts: asked.trace.is_some() || asked.form == Asks::Charts,
        has_legs: has_legs(asked),
    }
}

/// Whether both legs of a proxy are looked for: two captures are of one leg each.
fn has_legs(asked: &Asked) -> bool {
    asked.legs != LegsAsked::None && matches!(asked.captures, Captures::One(_))
}

fn judged<'a>(asked: &Asked, whole: &'a Whole<'a>) -> Judged<'a> {
    Judged { whole, failures: why::failures_of(whole, &asked.gates), whose: "", said: Default::default() }
}

/// Writes what is said, and what fails the run.
fn ended(
    asked: &Asked,
    wholes: &[&Whole<'_>],
    judged: Vec<Judged<'_>>,
    say_all: impl FnOnce(&mut dyn io::Write) -> io::Result<()>,
) -> Outcome {
    if let Some(file) = &asked.junit {
        written(file, |to| why::write_junit(&judged, to))?;
    }
    if let (Some(file), [whole]) = (&asked.trace, wholes) {
        written(file, |to| why::write_trace(whole, to))?;
    }
    if !asked.is_quiet {
        written(Path::new("-"), say_all)?;
    }
    let failures: Vec<_> = judged.into_iter().flat_map(|one| one.failures).collect();
    if asked.has_gates {
        why::lines_of(&failures).iter().for_each(|line| say(NAME, &printable(line)));
    }
    if !failures.is_empty() {
        return Ok(FAILED);
    }
    if wholes.iter().all(|whole| whole.summary.audited > 0) {
        return Ok(DONE);
    }
    say(NAME, "nothing was audited");
    Ok(NOTHING_AUDITED)
}

/// Writes a file, which is there once it is whole; or standard output for `-`.
fn written(file: &Path, write: impl FnOnce(&mut dyn io::Write) -> io::Result<()>) -> Result<(), Failure> {
    let mut output = Output::begin(file)?;
    let done = write(&mut output);
    done.map_err(|error| output.failure(&error))?;
    output.finish()
}

/// How text is to look.
fn look_of(asked: &Asked) -> Look {
    let has_colours = match asked.colours {
        Colours::Always => true,
        Colours::Never => false,
        Colours::OnTerminal => terminal::is_output() && terminal::wants_colours(),
    };
    let width = asked.width.or_else(|| terminal::is_output().then(terminal::width));
    Look { has_colours, width, is_all: asked.is_all, has_all_legs: asked.legs == LegsAsked::All }
}

/// Two captures are told as text, or as one document.
fn look_of_two(asked: &Asked) -> Option<Look> {
    match asked.form {
        Asks::Document => None,
        _ => Some(look_of(asked)),
    }
}

fn main() {
    run(NAME, why)
}
