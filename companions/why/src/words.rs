//! The command line of h2audit-why.

use std::ffi::OsString;
use std::path::{Path, PathBuf};

use explain::answer::Nanos;
use lexopt::Arg::{Long, Short, Value};
use lexopt::Parser;
use programs::{number, printable, wrong, Failure};

use why::{Gates, Reason};

const LEAST_WIDTH: u64 = 40;
const MOST_WIDTH: u64 = 1000;
const MOST_WORKERS: u64 = 64;
/// The digits of a time before its point, and behind it.
const MOST_DIGITS: usize = 9;
const UNITS: [(&str, i64); 5] = [("ns", 1), ("us", 1_000), ("µs", 1_000), ("ms", 1_000_000), ("s", 1_000_000_000)];
const COLOURS: [(&str, Colours); 3] =
    [("auto", Colours::OnTerminal), ("always", Colours::Always), ("never", Colours::Never)];

/// What a command line asks for.
pub enum Words {
    Help,
    Version,
    Why(Box<Asked>),
}

#[derive(Clone, Copy, Debug, Default, PartialEq, Eq)]
pub enum Colours {
    #[default]
    OnTerminal,
    Always,
    Never,
}

/// The form in which the answer is asked for.
#[derive(Clone, Debug, PartialEq, Eq)]
pub enum Asks {
    Text,
    Document,
    Charts,
    Lines,
    Rows(PathBuf),
    /// The charts of a report.
    Windows(PathBuf),
}

/// For which requests both legs are told.
#[derive(Clone, Copy, Debug, Default, PartialEq, Eq)]
pub enum LegsAsked {
    /// For front requests that were slow.
    #[default]
    Slow,
    All,
    None,
}

/// The captures of which is said something.
#[derive(Clone, Debug, PartialEq, Eq)]
pub enum Captures {
    /// Files of one capture.
    One(Vec<OsString>),
    /// Before a change, and after it.
    Compare([OsString; 2]),
    /// At the client, and at the server.
    Ends([OsString; 2]),
}

#[derive(Clone, Debug)]
pub struct Asked {
    pub captures: Captures,
    pub key_logs: Vec<OsString>,
    pub is_sorted: bool,
    pub is_reordered: bool,
    /// Whether connections that began before the capture are joined.
    pub is_joined: bool,
    pub is_all: bool,
    pub has_query: bool,
    pub has_names: bool,
    /// Whether both legs of proxies are told: of all requests, of some, or of none.
    pub legs: LegsAsked,
    pub form: Asks,
    pub colours: Colours,
    pub width: Option<usize>,
    pub program: Option<OsString>,
    /// h2audit's.
    pub options: Vec<String>,
    /// Where the report of the original goes; and a report that is there, so that no program audits.
    pub report: Option<PathBuf>,
    pub audit: Option<PathBuf>,
    pub gates: Gates,
    pub has_gates: bool,
    pub junit: Option<PathBuf>,
    pub trace: Option<PathBuf>,
    pub is_quiet: bool,
}

/// The words as they come, before it is known whether they go together.
#[derive(Default)]
struct Taken {
    files: Vec<OsString>,
    compare: Option<[OsString; 2]>,
    ends: Option<[OsString; 2]>,
    form: Option<(&'static str, Asks)>,
    key_logs: Vec<OsString>,
    is_sorted: bool,
    is_reordered: bool,
    is_not_joined: bool,
    is_all: bool,
    has_query: bool,
    has_no_requests: bool,
    legs: LegsAsked,
    colours: Colours,
    width: Option<usize>,
    program: Option<OsString>,
    workers: Option<u64>,
    report: Option<PathBuf>,
    audit: Option<PathBuf>,
    reasons: Vec<Reason>,
    stall: Option<Nanos>,
    life: Option<Nanos>,
    needs_http2: bool,
    junit: Option<PathBuf>,
    trace: Option<PathBuf>,
    is_quiet: bool,
}

pub fn words_of(words: Vec<OsString>) -> Result<Words, Failure> {
    let mut parser = Parser::from_args(words);
    let mut taken = Taken::default();
    while let Some(word) = parser.next().map_err(wrong)? {
        match word {
            Short('h') | Long("help") => return Ok(Words::Help),
            Short('V') | Long("version") => return Ok(Words::Version),
            Short('k') | Long("key-log") => taken.key_logs.push(parser.value().map_err(wrong)?),
            Long("sort") => taken.is_sorted = true,
            Long("reorder") => taken.is_reordered = true,
            Long("no-joined") => taken.is_not_joined = true,
            Long("all") => taken.is_all = true,
            Long("query") => taken.has_query = true,
            Long("no-requests") => taken.has_no_requests = true,
            Long("legs") => taken.asks_legs(LegsAsked::All)?,
            Long("no-legs") => taken.asks_legs(LegsAsked::None)?,
            Long("json") => taken.form("--json", Asks::Document)?,
            Long("json-lines") => taken.form("--json-lines", Asks::Lines)?,
            Long("charts") => taken.form("--charts", Asks::Charts)?,
            Long("windows") => {
                let report = PathBuf::from(parser.value().map_err(wrong)?);
                taken.form("--windows", Asks::Windows(report))?;
            }
            Long("rows") => {
                let file = PathBuf::from(parser.value().map_err(wrong)?);
                taken.form("--rows", Asks::Rows(file))?;
            }
            Long("report") => taken.report = Some(PathBuf::from(parser.value().map_err(wrong)?)),
            Long("workers") => {
                taken.workers = Some(number("--workers", &parser.value().map_err(wrong)?, 1, MOST_WORKERS)?);
            }
            Long("audit") => taken.audit = Some(PathBuf::from(parser.value().map_err(wrong)?)),
            Long("color") => taken.colours = colours_of(parser.value().map_err(wrong)?)?,
            Long("width") => taken.width = Some(width_of(parser.value().map_err(wrong)?)?),
            Long("h2audit") => taken.program = Some(parser.value().map_err(wrong)?),
            Long("fail-on") => taken.reasons.extend(reasons_of(parser.value().map_err(wrong)?)?),
            Long("fail-stall") => taken.stall = Some(duration_of("--fail-stall", parser.value().map_err(wrong)?)?),
            Long("fail-life") => taken.life = Some(duration_of("--fail-life", parser.value().map_err(wrong)?)?),
            Long("require-http2") => taken.needs_http2 = true,
            Long("junit") => taken.junit = Some(PathBuf::from(parser.value().map_err(wrong)?)),
            Long("trace") => taken.trace = Some(PathBuf::from(parser.value().map_err(wrong)?)),
            Long("quiet") => taken.is_quiet = true,
            Long("compare") => taken.compare = Some(two(&mut parser, "--compare")?),
            Long("ends") => taken.ends = Some(two(&mut parser, "--ends")?),
            Value(file) => taken.files.push(file),
            other => return Err(wrong(other.unexpected())),
        }
    }
    taken.asked().map(|asked| Words::Why(Box::new(asked)))
}

impl Taken {
    fn form(&mut self, name: &'static str, form: Asks) -> Result<(), Failure> {
        match &self.form {
            Some((other, _)) if *other != name => {
                Err(Failure::Usage(format!("argument {name}: not allowed with argument {other}")))
            }
            _ => {
                self.form = Some((name, form));
                Ok(())
            }
        }
    }

    fn asks_legs(&mut self, legs: LegsAsked) -> Result<(), Failure> {
        if self.legs != LegsAsked::Slow && self.legs != legs {
            return Err(Failure::Usage("argument --no-legs: not allowed with argument --legs".to_string()));
        }
        self.legs = legs;
        Ok(())
    }

    /// Whether something of CI is asked for.
    fn has_gates(&self) -> bool {
        let has_times = self.stall.is_some() || self.life.is_some();
        !self.reasons.is_empty() || has_times || self.needs_http2 || self.junit.is_some() || self.is_quiet
    }

    fn asked(self) -> Result<Asked, Failure> {
        self.check()?;
        let has_gates = self.has_gates();
        // Two ends are known by handshakes.
        let is_joined = !self.is_not_joined && self.ends.is_none();
        let captures = match (self.compare, self.ends) {
            (Some(two), _) => Captures::Compare(two),
            (None, Some(two)) => Captures::Ends(two),
            (None, None) => Captures::One(self.files),
        };
        let reasons = if self.reasons.is_empty() { vec![Reason::Fault] } else { self.reasons };
        Ok(Asked {
            captures,
            key_logs: self.key_logs,
            is_sorted: self.is_sorted,
            is_reordered: self.is_reordered,
            is_joined,
            is_all: self.is_all,
            has_query: self.has_query,
            has_names: !self.has_no_requests,
            legs: self.legs,
            form: self.form.map_or(Asks::Text, |(_, form)| form),
            colours: self.colours,
            width: self.width,
            program: self.program,
            options: self.workers.map(|workers| format!("--workers={workers}")).into_iter().collect(),
            report: self.report,
            audit: self.audit,
            gates: Gates { reasons, stall: self.stall, life: self.life, needs_http2: self.needs_http2 },
            has_gates,
            junit: self.junit,
            trace: self.trace,
            is_quiet: self.is_quiet,
        })
    }

    /// Whether the words go together.
    fn check(&self) -> Result<(), Failure> {
        let refuse = |why: String| Err(Failure::Usage(why));
        let form = self.form.as_ref().map(|(name, _)| *name);
        let of_two = match (&self.compare, &self.ends) {
            (Some(_), _) => Some("--compare"),
            (None, Some(_)) => Some("--ends"),
            (None, None) => None,
        };
        if let Some(option) = of_two {
            if !self.files.is_empty() || self.compare.is_some() && self.ends.is_some() {
                return refuse(format!("{option} takes two captures, and no other"));
            }
            match form {
                Some("--json-lines") => return refuse(format!("{option} has no lines of JSON: --json")),
                Some("--rows") => return refuse(format!("{option} has no rows: --json")),
                Some("--charts") => return refuse(format!("{option} has no charts: --json")),
                _ => {}
            }
        }
        if self.compare.is_some() && self.has_no_requests {
            return refuse("--compare matches requests by their names: not with --no-requests".to_string());
        }
        if self.has_no_requests && self.reasons.contains(&Reason::Status) {
            return refuse("--fail-on status reads the fields of answers: not with --no-requests".to_string());
        }
        if form == Some("--windows") && !(self.files.is_empty() && of_two.is_none() && !self.has_gates()) {
            return refuse("--windows reads a report, and nothing else".to_string());
        }
        if form == Some("--rows") && self.has_gates() {
            return refuse("--rows has no reasons to fail, and no JUnit file".to_string());
        }
        match self.trace.as_deref().map(Path::to_str) {
            Some(_) if of_two.is_some() || matches!(form, Some("--rows" | "--windows")) => {
                let other = of_two.or(form).unwrap_or_default();
                return refuse(format!("--trace is of one answer: not with {other}"));
            }
            Some(Some("-")) if !self.is_quiet => return refuse("--trace - goes with --quiet".to_string()),
            _ => {}
        }
        self.check_legs(of_two)?;
        self.check_report()
    }

    /// Whether what is about both legs of a proxy goes together.
    fn check_legs(&self, of_two: Option<&str>) -> Result<(), Failure> {
        let reason = self.reasons.iter().find(|reason| reason.is_of_legs());
        match (of_two, self.legs, reason) {
            (Some(option), LegsAsked::All, _) => {
                Err(Failure::Usage(format!("{option} has no legs of a proxy: not with --legs")))
            }
            (Some(option), _, Some(reason)) => {
                Err(Failure::Usage(format!("{option} has no legs of a proxy: not with --fail-on {}", reason.name())))
            }
            (None, LegsAsked::None, Some(reason)) => {
                let why = format!("--fail-on {} is about both legs: not with --no-legs", reason.name());
                Err(Failure::Usage(why))
            }
            _ => Ok(()),
        }
    }

    /// Whether what is about the report goes together.
    fn check_report(&self) -> Result<(), Failure> {
        let refuse = |why: &str| Err(Failure::Usage(why.to_string()));
        match (&self.report, &self.audit, &self.form) {
            (None, None, _) => Ok(()),
            (Some(report), _, Some((_, Asks::Rows(rows)))) if report == rows => {
                refuse("--rows and --report are the same file")
            }
            (_, _, Some((_, Asks::Rows(_)))) => Ok(()),
            (Some(_), ..) => refuse("--report goes with --rows"),
            (None, ..) => refuse("--audit goes with --rows"),
        }
    }
}

/// The two values of an option, which are no options.
fn two(parser: &mut Parser, option: &str) -> Result<[OsString; 2], Failure> {
    let mut value = || match parser.value() {
        Ok(word) if is_value(&word) => Ok(word),
        _ => Err(Failure::Usage(format!("argument {option}: expected 2 arguments"))),
    };
    Ok([value()?, value()?])
}

fn is_value(word: &OsString) -> bool {
    word == "-" || !word.to_string_lossy().starts_with('-')
}

fn colours_of(word: OsString) -> Result<Colours, Failure> {
    let known = COLOURS.iter().find(|(name, _)| word == *name);
    known.map(|(_, colours)| *colours).ok_or_else(|| {
        let names: Vec<String> = COLOURS.iter().map(|(name, _)| format!("'{name}'")).collect();
        let word = printable(word);
        Failure::Usage(format!("argument --color: invalid choice: '{word}' (choose from {})", names.join(", ")))
    })
}

fn width_of(word: OsString) -> Result<usize, Failure> {
    let width = number("--width", &word, LEAST_WIDTH, MOST_WIDTH)?;
    Ok(usize::try_from(width).unwrap_or(usize::MAX))
}

fn reasons_of(words: OsString) -> Result<Vec<Reason>, Failure> {
    printable(words).split(',').map(reason_of).collect()
}

fn reason_of(word: &str) -> Result<Reason, Failure> {
    let known = Reason::NAMED.into_iter().find(|reason| reason.name() == word);
    known.ok_or_else(|| {
        let names: Vec<&str> = Reason::NAMED.iter().map(|reason| reason.name()).collect();
        Failure::Usage(format!("argument --fail-on: '{word}' is no reason: {}", names.join(", ")))
    })
}

/// Nanoseconds of a time with its unit.
fn duration_of(option: &str, word: OsString) -> Result<Nanos, Failure> {
    let word = printable(word);
    nanos_of(&word)
        .ok_or_else(|| Failure::Usage(format!("argument {option}: '{word}' is no time, as 100ms, 1.5s or 250us")))
}

fn nanos_of(word: &str) -> Option<Nanos> {
    let (digits, size) = UNITS.iter().find_map(|(unit, size)| word.strip_suffix(unit).map(|digits| (digits, size)))?;
    let (whole, part) = match digits.split_once('.') {
        Some((whole, part)) => (digits_of(whole)?, digits_of(part)? * 10_i64.pow((MOST_DIGITS - part.len()) as u32)),
        None => (digits_of(digits)?, 0),
    };
    Some(whole * size + part * size / 1_000_000_000)
}

fn digits_of(word: &str) -> Option<i64> {
    let is_number = (1..=MOST_DIGITS).contains(&word.len()) && word.bytes().all(|byte| byte.is_ascii_digit());
    word.parse().ok().filter(|_| is_number)
}

#[cfg(test)]
mod tests;
