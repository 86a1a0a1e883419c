//! Builds the answer: imports, learns, audits, and walks once more over what was made.

use std::ffi::{OsStr, OsString};
use std::fs::File;
use std::io;
use std::path::Path;

use import::{Bounds, Courses, Fate, MadeCapture, Sink, Summary, Target, Unopened};
use joined::How;
use originals::{Keeping, Original};
use programs::{program_named, temporary_failure, Failure, Progress};

use crate::answer::{Answer, Files};
use crate::audit::{broken, Audits};
use crate::doubts::{doubled, doubts_of, not_audited, Unjoined, ONE_DIRECTION};
use crate::frame_log::{Entry, FrameLog, Logged};
use crate::joining::is_told;
use crate::learning::{Known, Learned, Learning};
use crate::legs::{legs_of, may_have_hops, Partials};
use crate::listening::Listening;
use crate::reported::{audited, of_original, read_report, ReportTo, Reported};
use crate::telling::{tell, untold};

/// What is asked.
pub struct ExplainOptions<'a> {
    /// The program that asks, as messages name it.
    pub program: &'a str,
    /// In the order in which they are read; standard input where there is none.
    pub files: &'a [OsString],
    pub key_logs: &'a [OsString],
    /// Whether packets are put in order of time.
    pub is_reordered: bool,
    /// Whether connections that began before the capture are joined.
    pub is_joined: bool,
    /// The program that audits, where it is named, and its options.
    pub h2audit: Option<OsString>,
    pub options: &'a [String],
    /// A report of h2audit on what the import makes, or on some parts of it: if it is there, no program audits.
    pub report: Option<&'a Path>,
    /// Whether names of requests are wanted; whether with the query of the path; and whether spans of lives are.
    pub has_names: bool,
    pub has_query: bool,
    pub has_spans: bool,
    /// Whether all frames are, as where both ends of connections are asked about.
    pub has_frames: bool,
    /// Whether the credits of windows are, as charts show them.
    pub has_charts: bool,
    /// Whether both legs of proxies are.
    pub has_legs: bool,
}

/// What is known of what was made.
pub struct Made {
    pub log: FrameLog,
    pub summary: Summary,
    pub courses: Courses,
    /// By the import's numbers.
    pub known: Vec<Option<Box<Known>>>,
    /// The import's numbers in the order of the report.
    pub order: Vec<usize>,
    pub files: Files,
    /// Files that end within a packet, and the number of that packet in each.
    pub cuts: Vec<(usize, u64)>,
    pub addresses: import::Addresses,
    /// Where the import's connections stand in the answer.
    pub places: Vec<Option<usize>>,
}

/// Imports the files, audits what is made, and says what it means.
pub fn answer_of(asked: &ExplainOptions<'_>) -> Result<Answer, Failure> {
    match asked.report {
        Some(report) => answer_by(asked, make(asked, false, &mut io::sink())?.0, read_report(report)?),
        None => {
            let (made, _, audits) = made_and_audited(asked, false, None)?;
            answer_by(asked, made, audits)
        }
    }
}

/// Answers as [`answer_of`] does, and also writes the report of the original.
pub fn answer_with_report(asked: &ExplainOptions<'_>, to: ReportTo<'_>) -> Result<(Answer, Reported), Failure> {
    let (made, keeping, audits, report) = match asked.report {
        Some(path) => {
            let (made, keeping) = make(asked, true, &mut io::sink())?;
            let report = File::open(path).map_err(|error| Failure::of_file(path, &error))?;
            (made, keeping, read_report(path)?, report)
        }
        None => {
            let mut report = tempfile::tempfile().map_err(|error| temporary_failure(&error))?;
            let (made, keeping, audits) = made_and_audited(asked, true, Some(&mut report))?;
            (made, keeping, audits, report)
        }
    };
    let mut original = keeping.unwrap_or_default().original;
    note_joined(&mut original, &made);
    let answer = answer_by(asked, made, audits)?;
    let reported = of_original(report, &mut original, &answer, to)?;
    Ok((answer, reported))
}

/// What the report of the original has of connections that began before the capture: those of which nothing is
/// inferred.
fn note_joined(original: &mut Original, made: &Made) {
    let untold = untold(&made.summary, &made.courses);
    for one in &made.summary.joined {
        let is_exact = !matches!(one.how, How::Inferred(_)) && !untold.contains(&one.connection);
        let joined = if is_exact { originals::Joined::Exact } else { originals::Joined::LeftOut };
        let outcome = made.summary.outcomes.get(one.connection);
        outcome.into_iter().for_each(|outcome| original.add_joined(outcome.opening, joined.clone()));
    }
    for pair in made.summary.unopened.iter().filter(|pair| pair.fate != Fate::NotAsked) {
        let known = originals::Unopened { segments: pair.segments, fate: fate_of(pair, &made.courses) };
        original.add_unopened(made.addresses.endpoints(&pair.ends), known);
    }
}

fn fate_of(pair: &Unopened, courses: &Courses) -> Option<String> {
    match pair.fate {
        Fate::NotAsked => None,
        Fate::Joined(_) if is_told(pair, courses) => Some("joined".to_string()),
        Fate::Joined(_) => Some(ONE_DIRECTION.to_string()),
        Fate::Unjoined(_) if pair.is_one_way => Some(ONE_DIRECTION.to_string()),
        Fate::Unjoined(why) => Some(why.to_string()),
    }
}

type MadeAndAudited = (Made, Option<Keeping>, Audits);

/// Imports and audits. Where the original is audited in place of what is made, and was changed meanwhile, both are done
/// anew with what is made.
fn made_and_audited(
    asked: &ExplainOptions<'_>,
    keeps: bool,
    mut copy: Option<&mut File>,
) -> Result<MadeAndAudited, Failure> {
    let mut capture = MadeCapture::new(asked.files, !asked.is_reordered)?;
    let (mut made, mut keeping) = make(asked, keeps, &mut capture)?;
    let program = program_named(asked.h2audit.clone())?;
    let mut audits = audit(asked, &program, &mut capture, copy.as_deref_mut());
    if capture.has_changed() {
        capture = MadeCapture::new(asked.files, false)?;
        (made, keeping) = make(asked, keeps, &mut capture)?;
        audits = audit(asked, &program, &mut capture, copy);
    }
    let audits = audits?;
    keeping.iter_mut().for_each(|keeping| keeping.original.is_audited = capture.is_original());
    if audits.len() != made.order.len() {
        return Err(broken("it has other connections"));
    }
    Ok((made, keeping, audits))
}

fn audit(
    asked: &ExplainOptions<'_>,
    program: &OsStr,
    capture: &mut MadeCapture,
    copy: Option<&mut File>,
) -> Result<Audits, Failure> {
    let _auditing = Progress::begin(asked.program, "auditing", None);
    audited(program, asked.options, capture, copy)
}

fn answer_by(asked: &ExplainOptions<'_>, mut made: Made, audits: Audits) -> Result<Answer, Failure> {
    let files = std::mem::take(&mut made.files);
    let (cuts, counts) = (std::mem::take(&mut made.cuts), made.summary.counts);
    let mut answer = Answer { files, packets: counts.records, counts, cuts, ..Answer::default() };
    let mut partial: Partials = Vec::new();
    if asked.has_legs {
        partial.extend(made.known.iter_mut().map(|known| known.as_mut().map(|one| std::mem::take(&mut one.partial))));
    }
    let unopened = Unjoined::of(&made.summary, &made.courses);
    let doubled = doubled(&made.courses);
    tell(asked, &mut made, audits, &mut answer)?;
    answer.not_audited = not_audited(&answer, &made.summary, &unopened);
    answer.warnings = doubts_of(&answer, &made.summary, doubled);
    if asked.has_legs && may_have_hops(&answer) {
        answer.legs = legs_of(asked.program, &answer, &mut made, &partial)?;
    }
    // Captures of a proxy's two sides overlap, and each connection is in one of them.
    if !answer.legs.hops.is_empty() && answer.connections.iter().all(|one| one.late == 0 && one.joined.is_none()) {
        answer.warnings.retain(|one| one.kind != "files-out-of-order");
    }
    Ok(answer)
}

/// Imports, and keeps what a report of the original needs, if one is wanted. What is made goes to where it is audited.
fn make(asked: &ExplainOptions<'_>, keeps: bool, target: &mut dyn Target) -> Result<(Made, Option<Keeping>), Failure> {
    let mut listening = Listening { learning: Learning::new()?, keeping: keeps.then(Keeping::default) };
    let mut courses = Courses::default();
    let mut sink = Sink::new(target, &mut listening)?;
    let ExplainOptions { program, files, key_logs, is_reordered, is_joined, .. } = *asked;
    let bounds = Bounds::default();
    let import = import::ImportOptions { program, files, key_logs, is_reordered, is_joined, bounds, can_repeat: true };
    let summary = import::imported(&import, &mut sink, Some(&mut courses))?;
    drop(sink);
    if summary.counts.fragments + summary.counts.refused > 0 {
        // What was passed over may have the bytes that seem not to be captured.
        let courses = courses.connections.iter_mut().flatten();
        courses.flat_map(|one| &mut one.sides).for_each(|side| side.uncaptured = Default::default());
    }
    for one in summary.joined.iter().filter(|one| matches!(one.behind, import::Behind::Gap(_))) {
        // They are told of the connection that has the gap.
        let course = courses.connections.get_mut(one.connection).into_iter().flatten();
        course.flat_map(|course| &mut course.sides).for_each(|side| side.uncaptured = Default::default());
    }
    let Learning { mut connections, order, files, addresses, mut log, cuts, .. } = listening.learning;
    place_early(&mut connections, &mut log).map_err(|error| temporary_failure(&error))?;
    let known = connections.into_iter().map(|one| one.map(|one| Box::new(one.known()))).collect();
    let places = Vec::new();
    Ok((Made { log, summary, courses, known, order, files, cuts, addresses, places }, listening.keeping))
}

/// Goes on with connections whose server sent bytes before its initial sequence number was known.
pub fn place_early(connections: &mut [Option<Box<Learned>>], log: &mut FrameLog) -> io::Result<()> {
    if !connections.iter().flatten().any(|one| one.is_early()) {
        return Ok(());
    }
    let mut reader = log.reader()?;
    while let Some(Entry { came, found }) = reader.next()? {
        if let (Logged::Unplaced(payload), Some(Some(one))) = (found, connections.get_mut(came.connection)) {
            one.place(&came, &payload, log)?;
        }
    }
    Ok(())
}
