//! Writes what a report of h2audit, or h2audit-why, says into the capture, as comments of its packets, for Wireshark.

#![forbid(unsafe_code)]

mod answered;
mod classic;
mod comments;
mod ended;
mod import_map;
#[cfg(test)]
mod mutated;
mod options;
mod packets;
mod report;
mod windows;

use std::ffi::OsString;
use std::io::{BufReader, Write};
use std::path::{Path, PathBuf};

use captures::{Format, Source};
use lexopt::Arg::{Long, Short, Value};
use programs::{end_cleanly, missing, print, printable, run, say, wrong, Failure, Input, Outcome, Output};
use reports::{count, grouped};

use comments::{Comments, Findings};
use ended::Ended;

const NAME: &str = "h2audit-comment";
const NOTHING_AUDITED: i32 = 6;
const HELP: &str = include_str!("help.txt");
const VERSION: &str = concat!("h2audit-comment ", env!("CARGO_PKG_VERSION"), "\n");
/// So many bytes of a report or a map are read at a time.
const BUFFER: usize = 1 << 18;

enum Asked {
    Text(&'static str),
    Comment(Words),
}

#[derive(Default)]
struct Words {
    capture: PathBuf,
    /// None where the answer of h2audit-why is wanted.
    report: Option<PathBuf>,
    output: PathBuf,
    map: Option<PathBuf>,
    with_credit: bool,
    is_why: bool,
    key_logs: Vec<OsString>,
    h2audit: Option<OsString>,
}

fn asked(words: Vec<OsString>) -> Result<Asked, Failure> {
    let mut parser = lexopt::Parser::from_args(words);
    let mut said = Words::default();
    let (mut places, mut output) = (Vec::new(), None);
    while let Some(word) = parser.next().map_err(wrong)? {
        match word {
            Short('o') | Long("output") => output = Some(PathBuf::from(parser.value().map_err(wrong)?)),
            Short('m') | Long("map") => said.map = Some(PathBuf::from(parser.value().map_err(wrong)?)),
            Long("credit") => said.with_credit = true,
            Long("why") => said.is_why = true,
            Short('k') | Long("key-log") => said.key_logs.push(parser.value().map_err(wrong)?),
            Long("h2audit") => said.h2audit = Some(parser.value().map_err(wrong)?),
            Short('h') | Long("help") => return Ok(Asked::Text(HELP)),
            Short('V') | Long("version") => return Ok(Asked::Text(VERSION)),
            Value(word) if places.len() < 2 => places.push(PathBuf::from(word)),
            other => return Err(wrong(other.unexpected())),
        }
    }
    let needs_report = !said.is_why && places.len() < 2;
    let absent = [("CAPTURE", places.is_empty()), ("REPORT", needs_report), ("-o/--output", output.is_none())];
    let absent: Vec<&str> = absent.iter().filter(|(_, is_absent)| *is_absent).map(|(name, _)| *name).collect();
    let mut places = places.into_iter();
    match (output, places.next(), places.next()) {
        (Some(output), Some(capture), report) if report.is_some() || said.is_why => {
            let said = Words { capture, report, output, ..said };
            go_together(&said).map(|()| Asked::Comment(said))
        }
        _ => Err(missing(&absent)),
    }
}

/// Whether the words go together.
fn go_together(said: &Words) -> Result<(), Failure> {
    let refuse = |why: &str| Err(Failure::Usage(why.to_string()));
    let inputs = [Some(&said.capture), said.report.as_ref(), said.map.as_ref()];
    if inputs.into_iter().flatten().filter(|name| name.as_os_str() == "-").count() > 1 {
        return refuse("standard input is one file alone");
    }
    if !said.is_why && (!said.key_logs.is_empty() || said.h2audit.is_some()) {
        return refuse("-k and --h2audit go with --why");
    }
    if said.is_why && (said.report.is_some() || said.map.is_some() || said.with_credit) {
        return refuse("--why audits the capture itself: without REPORT, -m and --credit");
    }
    if said.is_why && said.capture.as_os_str() == "-" {
        return refuse("--why reads the capture twice: a file, and not standard input");
    }
    Ok(())
}

/// What is to be said in comments, and how many findings are about another file; or that nothing was audited.
fn found(words: &Words) -> Result<(Findings, u64, bool), Failure> {
    let report = match &words.report {
        Some(report) => report,
        None => {
            let capture = words.capture.clone().into_os_string();
            let (findings, is_audited) = answered::findings(NAME, &capture, &words.key_logs, words.h2audit.clone())?;
            return Ok((findings, 0, is_audited));
        }
    };
    let input = Input::open(report)?;
    let mut findings = report::findings(BufReader::with_capacity(BUFFER, input), words.with_credit)
        .map_err(|ended| ended.of_input(report))?;
    let elsewhere = match &words.map {
        Some(map) => placed(&mut findings, map, &words.capture)?,
        None => 0,
    };
    Ok((findings, elsewhere, true))
}

/// Writes the commented capture, and says what a user should know of it.
fn comment(words: &Words) -> Outcome {
    end_cleanly().map_err(|error| Failure::from_io("signals", &error))?;
    let (findings, elsewhere, is_audited) = found(words)?;
    let report = words.report.as_ref().unwrap_or(&words.capture);
    let comments = Comments::new(findings).map_err(|ended| ended.of_input(report))?;
    let copied = copy(words, comments)?;
    if copied.is_cut {
        say(NAME, &format!("the capture ends within packet {}, which is left out", grouped(copied.packets + 1)));
    }
    if copied.has_bytes_behind {
        say(NAME, &format!("{}: bytes behind the end of what gzip packed were passed over", printable(&words.capture)));
    }
    if elsewhere > 0 {
        let are = if elsewhere == 1 { "is" } else { "are" };
        say(NAME, &format!("{} {are} about other files of the map", count(elsewhere, "finding")));
    }
    if !is_audited {
        say(NAME, "nothing was audited");
        return Ok(NOTHING_AUDITED);
    }
    Ok(0)
}

/// Takes findings to the packets of the capture, and answers how many are about another file of the map.
fn placed(findings: &mut Findings, map: &Path, capture: &Path) -> Result<u64, Failure> {
    let input = BufReader::with_capacity(BUFFER, Input::open(map)?);
    import_map::place(findings, input, capture).map_err(|ended| ended.of_input(map))
}

/// What there was in the capture.
pub struct Copied {
    packets: u64,
    is_cut: bool,
    has_bytes_behind: bool,
}

/// Writes the capture with its comments.
fn copy(words: &Words, mut comments: Comments) -> Result<Copied, Failure> {
    let source =
        Source::open(words.capture.as_os_str()).map_err(|error| Ended::from(error).of_input(&words.capture))?;
    let mut output = Output::begin(&words.output)?;
    let copied = copied(source, &mut comments, &mut output);
    match copied {
        Ok(copied) => output.finish().map(|()| copied),
        Err(Ended::Write(error)) => Err(output.failure(&error)),
        Err(ended) => Err(ended.of_input(&words.capture)),
    }
}

fn copied(mut source: Source, comments: &mut Comments, output: &mut impl Write) -> Result<Copied, Ended> {
    let copied = match Format::of(&mut source)? {
        Format::Pcap => classic::copy(source, comments, output)?,
        Format::Pcapng => packets::copy(source, comments, output)?,
    };
    comments.finish(copied.packets)?;
    Ok(copied)
}

fn main() {
    run(NAME, |words| match asked(words)? {
        Asked::Text(text) => print(text),
        Asked::Comment(words) => comment(&words),
    })
}
