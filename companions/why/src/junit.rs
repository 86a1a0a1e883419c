//! The answer as a JUnit file, as Jenkins, GitLab and others read it: a suite for each connection, a test for each
//! request, and one for the connection itself. With two ends each capture has its suites.
//!
//! Who reads such files follows a test by its name from run to run. So names have nothing that changes with each: no
//! port of a client, number of a stream or folder, but the server, the request, and whose turn it is.

use std::collections::HashMap;
use std::fmt::Write as _;
use std::hash::Hash;
use std::io::{self, Write};
use std::path::Path;
use std::rc::Rc;

use explain::answer::Nanos;

use crate::gates::{not_audited_words, Failure, Place};
use crate::joined::lines_of;
use crate::summing::{SummedConnection, Whole};
use crate::wording::escaped;

const INDENT: &str = "      ";

/// An answer and what fails of it; of two ends whose capture it is, and what both say of a place in it.
pub struct Judged<'a> {
    pub whole: &'a Whole<'a>,
    pub failures: Vec<Failure>,
    pub whose: &'static str,
    pub said: HashMap<Place, Vec<String>>,
}

/// Tests, failures, and those that were skipped.
#[derive(Clone, Copy, Default)]
struct Counts {
    tests: usize,
    failures: usize,
    skipped: usize,
}

/// A test.
struct Case<'a> {
    name: String,
    nanos: Nanos,
    said: String,
    skipped: Option<String>,
    failures: &'a [&'a Failure],
}

/// What fails by places, and how many places of each connection have something.
#[derive(Default)]
struct ByPlace<'a> {
    failures: HashMap<Place, Vec<&'a Failure>>,
    places: HashMap<u64, usize>,
}

/// Writes the file: ASCII, with references for other characters.
pub fn write(judged: &[Judged<'_>], to: &mut dyn Write) -> io::Result<()> {
    let by_place: Vec<ByPlace<'_>> = judged.iter().map(by_place).collect();
    let suites = || judged.iter().zip(&by_place).flat_map(|(one, failed)| suites_of(one, failed));
    let counts = suites().fold(Counts::default(), |sum, suite| sum.and(suite.counts()));
    let nanos = judged.iter().map(|one| one.whole.summary.nanos).max().unwrap_or(0);
    writeln!(to, "<?xml version=\"1.0\" encoding=\"UTF-8\"?>")?;
    ascii(&format!("<testsuites{}>\n", attributes("h2audit-why", counts, nanos)), to)?;
    suites().try_for_each(|suite| suite.write(to))?;
    writeln!(to, "</testsuites>")
}

fn by_place<'a>(judged: &'a Judged<'_>) -> ByPlace<'a> {
    let mut found = ByPlace::default();
    for failure in &judged.failures {
        let some = found.failures.entry(failure.place).or_default();
        if some.is_empty() {
            *found.places.entry(failure.place.0).or_default() += 1;
        }
        some.push(failure);
    }
    found
}

/// The capture, or a connection of it.
struct Suite<'a> {
    judged: &'a Judged<'a>,
    failed: &'a ByPlace<'a>,
    /// The connection, with its turn among those to its server.
    connection: Option<(&'a SummedConnection<'a>, usize)>,
}

fn suites_of<'a>(judged: &'a Judged<'a>, failed: &'a ByPlace<'a>) -> impl Iterator<Item = Suite<'a>> {
    let mut turns = Turns::default();
    let connections = judged.whole.connections.iter().map(move |one| Some((one, turns.next(&one.said.server))));
    std::iter::once(None).chain(connections).map(move |connection| Suite { judged, failed, connection })
}

/// How often each name came.
#[derive(Default)]
struct Turns<K>(HashMap<K, usize>);

impl<K: Clone + Eq + Hash> Turns<K> {
    /// How often this one came, with this time.
    fn next(&mut self, name: &K) -> usize {
        let turn = self.0.entry(name.clone()).or_default();
        *turn += 1;
        *turn
    }
}

/// The request, and which one of its name it is.
fn name_of(name: Option<&str>, turn: usize) -> String {
    let name = name.filter(|name| !name.is_empty()).unwrap_or("request");
    match turn {
        1 => name.to_string(),
        _ => format!("{name} ({turn})"),
    }
}

impl<'a> Suite<'a> {
    fn write(&self, to: &mut dyn Write) -> io::Result<()> {
        let name = self.name();
        ascii(&format!("  <testsuite{}>\n", attributes(&name, self.counts(), self.nanos())), to)?;
        self.own_case().write(&name, to)?;
        if let Some((one, _)) = self.connection {
            let mut turns: Turns<Option<Rc<str>>> = Turns::default();
            for request in one.said.requests.iter() {
                let place = (one.said.number, Some(request.stream));
                let which = format!("{}, stream {}", ends_of(one), request.stream);
                let said = self.lines([which, one.phrases.of(&request)].into_iter(), place);
                let case = Case {
                    name: name_of(request.name.as_deref(), turns.next(&request.name)),
                    nanos: request.nanos(),
                    said,
                    skipped: None,
                    failures: self.failures(place),
                };
                case.write(&name, to)?;
            }
        }
        writeln!(to, "  </testsuite>")
    }

    fn name(&self) -> String {
        let whose = self.judged.whose;
        match self.connection {
            None => {
                let names = self.judged.whole.answer.files.names.iter();
                let names: Vec<_> = names.map(|name| without_folder(name)).collect();
                format!("{whose}{}", names.join(", "))
            }
            Some((one, turn)) => format!("{whose}{}, connection {turn}", one.said.server),
        }
    }

    fn nanos(&self) -> Nanos {
        match self.connection {
            None => self.judged.whole.summary.nanos,
            Some((one, _)) => (one.said.until - one.said.begin).max(0),
        }
    }

    fn counts(&self) -> Counts {
        let own = self.own_case();
        let requests = self.connection.map_or(0, |(one, _)| one.said.requests.len());
        let number = self.connection.map_or(0, |(one, _)| one.said.number);
        Counts {
            tests: 1 + requests,
            failures: self.failed.places.get(&number).copied().unwrap_or(0),
            skipped: usize::from(own.skipped.is_some() && own.failures.is_empty()),
        }
    }

    /// The test of the capture, or of the connection itself.
    fn own_case(&self) -> Case<'a> {
        let answer = self.judged.whole.answer;
        match self.connection {
            None => {
                let warnings = answer.warnings.iter().map(|one| one.text.clone());
                let not_audited = answer.not_audited.iter().map(|one| one.text.clone());
                let said = std::iter::once(self.judged.whole.summary.text.clone()).chain(warnings).chain(not_audited);
                Case {
                    name: "capture".to_string(),
                    nanos: self.nanos(),
                    said: said.collect::<Vec<_>>().join("\n"),
                    skipped: (self.judged.whole.summary.audited == 0).then(|| "nothing was audited".to_string()),
                    failures: self.failures((0, None)),
                }
            }
            Some((one, _)) => {
                let place = (one.said.number, None);
                let said = std::iter::once(ends_of(one)).chain(lines_of(one.said, false));
                Case {
                    name: "connection".to_string(),
                    nanos: self.nanos(),
                    said: self.lines(said.chain(one.said.notes.iter().cloned()), place),
                    skipped: (!one.said.is_audited()).then(|| not_audited_words(one.said)),
                    failures: self.failures(place),
                }
            }
        }
    }

    fn failures(&self, place: Place) -> &'a [&'a Failure] {
        self.failed.failures.get(&place).map_or(&[], Vec::as_slice)
    }

    /// Lines about a place, and behind them those of both ends.
    fn lines(&self, said: impl Iterator<Item = String>, place: Place) -> String {
        let of_both = self.judged.said.get(&place).into_iter().flatten().cloned();
        said.chain(of_both).collect::<Vec<_>>().join("\n")
    }
}

/// Which connection it is, as the text has it.
fn ends_of(one: &SummedConnection<'_>) -> String {
    format!("connection {}  {} -> {}", one.said.number, one.said.client, one.said.server)
}

fn without_folder(name: &str) -> &str {
    Path::new(name).file_name().and_then(|last| last.to_str()).unwrap_or(name)
}

impl Case<'_> {
    fn write(&self, suite: &str, to: &mut dyn Write) -> io::Result<()> {
        let (name, suite, time) = (quoted(&self.name), quoted(suite), seconds(self.nanos));
        let mut text = format!("    <testcase name={name} classname={suite} time=\"{time}\">\n");
        if let Some(first) = self.failures.first() {
            let told: Vec<String> =
                self.failures.iter().map(|one| format!("{}: {}", one.reason.name(), one.text)).collect();
            let (kind, message, told) = (quoted(first.reason.name()), quoted(&first.text), plain(&told.join("\n")));
            let _ = writeln!(text, "{INDENT}<failure type={kind} message={message}>{told}</failure>");
        } else if let Some(why) = &self.skipped {
            let _ = writeln!(text, "{INDENT}<skipped message={}/>", quoted(why));
        }
        if !self.said.is_empty() {
            let _ = writeln!(text, "{INDENT}<system-out>{}</system-out>", plain(&self.said));
        }
        text += "    </testcase>\n";
        ascii(&text, to)
    }
}

impl Counts {
    fn and(self, other: Counts) -> Counts {
        Counts {
            tests: self.tests + other.tests,
            failures: self.failures + other.failures,
            skipped: self.skipped + other.skipped,
        }
    }
}

fn attributes(name: &str, counts: Counts, nanos: Nanos) -> String {
    let Counts { tests, failures, skipped } = counts;
    let (name, time) = (quoted(name), seconds(nanos));
    format!(" name={name} tests=\"{tests}\" failures=\"{failures}\" errors=\"0\" skipped=\"{skipped}\" time=\"{time}\"")
}

fn seconds(nanos: Nanos) -> String {
    format!("{}.{:03}", nanos.div_euclid(1_000_000_000), nanos.div_euclid(1_000_000).rem_euclid(1_000))
}

/// The value of an attribute, in its quotation marks.
fn quoted(text: &str) -> String {
    let text = markup(&escaped(text));
    match (text.contains('"'), text.contains('\'')) {
        (false, _) => format!("\"{text}\""),
        (true, false) => format!("'{text}'"),
        (true, true) => format!("\"{}\"", text.replace('"', "&quot;")),
    }
}

/// What XML cannot hold, or what a terminal would act on, as an escape; lines stay lines.
fn plain(text: &str) -> String {
    let lines: Vec<_> = text.split('\n').map(escaped).collect();
    markup(&lines.join("\n"))
}

fn markup(text: &str) -> String {
    text.replace('&', "&amp;").replace('<', "&lt;").replace('>', "&gt;")
}

fn ascii(text: &str, to: &mut dyn Write) -> io::Result<()> {
    if text.is_ascii() {
        return to.write_all(text.as_bytes());
    }
    for letter in text.chars() {
        match letter.is_ascii() {
            true => write!(to, "{letter}")?,
            false => write!(to, "&#{};", u32::from(letter))?,
        }
    }
    Ok(())
}

#[cfg(test)]
mod tests {
    use super::{ascii, name_of, plain, quoted, seconds, without_folder, Turns};

    #[test]
    fn names_have_nothing_of_a_run() {
        let mut turns = Turns::default();
        let names = ["GET /a", "GET /b", "GET /a"].map(|name| name_of(Some(name), turns.next(&name)));
        assert_eq!(names, ["GET /a", "GET /b", "GET /a (2)"]);
        assert_eq!((name_of(None, 1), name_of(Some(""), 3)), ("request".to_string(), "request (3)".to_string()));
        assert_eq!((without_folder("/tmp/x/a.pcap"), without_folder("-")), ("a.pcap", "-"));
    }

    #[test]
    fn what_xml_cannot_hold_is_escaped() {
        assert_eq!(quoted("a<b>&\u{1}"), "\"a&lt;b&gt;&amp;\\x01\"");
        assert_eq!((quoted("say \"x\""), quoted("\"it's\"")), ("'say \"x\"'".into(), "\"&quot;it's&quot;\"".into()));
        assert_eq!(plain("one\n\ttwo & 3"), "one\n\\ttwo &amp; 3");
        let mut written = Vec::new();
        assert!(ascii("5 µs 😀", &mut written).is_ok());
        assert_eq!(written, b"5 &#181;s &#128512;");
        assert_eq!((seconds(1_234_567_890), seconds(999_999)), ("1.234".to_string(), "0.000".to_string()));
    }
}
