//! Says what became of each connection, and walks over the frames of those that were audited.

mod at_first;
mod roots;

use std::collections::HashSet;
use std::rc::Rc;

use import::{Became, Courses, Fate, Summary};
use joined::Inferred;
use programs::{temporary_failure, Failure, Progress};

use crate::across::{root_of, Across};
use crate::answer::{
    Answer, At, Certainty, ChartsSaid, ConnectionSaid, Ended, How as Ending, Outcome, Requests, RoundTrip,
};
use crate::audit::{broken, Audit, Audits};
use crate::blocks::Names;
use crate::building::{ExplainOptions, Made};
use crate::charts::Choice;
use crate::connection::WalkedConnection;
use crate::frame_log::{Came, Entry, FrameReader, Frames, Logged};
use crate::joining::{is_joined_and_told, is_told, without_beginning};
use crate::learning::Known;
use crate::legs::may_have_hops;
use crate::names::Interner;
use crate::side_of;
use crate::spoken::{note_of, reason_of};
use crate::tcp::last_of;
use crate::walk::Asking;
use at_first::{how_joined, outcome_of, say_flows, say_refused};
use cutter::Numbers;
use roots::{behind, tell_faults_once, Roots};

/// So many streams that go on are not packed, of all connections together.
const MOST_LIVE: usize = 4096;
/// Why nothing is said of a connection whose beginning breaks rules.
const NO_BEGINNING: &str = "joined-beginning";
/// What helps where times go back though packets were put in order.
const LATER: &str = "reordercap";

/// A connection whose frames are walked over, and where it stands among all that are told.
struct Walked {
    index: usize,
    state: State,
    /// The packet from which on it goes on as another one, which is joined.
    until: Option<u64>,
    /// The connection with the gaps of which it is a part, or that has them.
    root: Option<usize>,
}

enum State {
    /// None of its frames came.
    Ahead(Box<Known>, Box<Audit>, Option<Rc<Inferred>>),
    Begun(Box<WalkedConnection>),
    Over,
}

/// All connections at once, in the order of the records that complete their frames.
struct Walk<'a> {
    asking: Asking,
    courses: &'a mut Courses,
    /// By the import's numbers.
    walked: Vec<Option<Walked>>,
    answer: &'a mut Answer,
    /// More streams than these are not left unpacked; and the connection whose streams are packed next.
    most_live: usize,
    next: usize,
    across: Across,
}

/// Says what became of each connection, and walks over those of HTTP/2.
pub fn tell(asked: &ExplainOptions<'_>, made: &mut Made, audits: Audits, answer: &mut Answer) -> Result<(), Failure> {
    let charts = asked.has_charts.then(|| Choice::of(audits.iter().map(|audit| &**audit)));
    let mut walked: Vec<Option<Walked>> = Vec::new();
    walked.resize_with(made.known.len(), || None);
    made.places.resize(made.known.len(), None);
    answer.connections.reserve_exact(audits.len());
    let mut numbers = std::mem::take(&mut made.order).into_iter();
    let untold = untold(&made.summary, &made.courses);
    let (mut roots, mut across) = (Roots::default(), Across::default());
    for audit in audits {
        // A report of some parts alone has not all connections.
        let is_of_it =
            |number: &usize| made.known[*number].as_ref().map_or(false, |known| known.record == audit.record);
        let number = numbers.find(is_of_it).ok_or_else(other_connections)?;
        if untold.contains(&number) {
            continue;
        }
        let (mut said, state) = said_at_first(made, audit, number)?;
        if let Some(joined) = &mut said.joined {
            joined.behind = roots.behind(made, &answer.connections, number);
        }
        let index = answer.connections.len();
        answer.connections.push(said);
        made.places[number] = Some(index);
        let until = goes_on_at(&made.summary, &made.courses, number);
        let root = root_of(&made.summary, number);
        if let (Some(root), Some(State::Ahead(_, _, Some(inferred)))) = (root, &state) {
            across.note(root, inferred);
        }
        walked[number] = state.map(|state| Walked { index, state, until, root });
    }
    made.summary.outcomes = Vec::new();
    let has_legs = asked.has_legs && may_have_hops(answer);
    let asking = Asking {
        names: Names { are_wanted: asked.has_names, has_query: asked.has_query },
        has_spans: asked.has_spans || has_legs,
        has_frames: asked.has_frames,
        has_legs,
        charts,
        interner: Interner::default(),
        numbers: Numbers::new(),
        live: Rc::default(),
    };
    let Made { log, courses, .. } = made;
    let walk = Walk { asking, courses, walked, answer, most_live: MOST_LIVE, next: 0, across };
    let reader = log.reader().map_err(|error| temporary_failure(&error))?;
    let _explaining = Progress::begin(asked.program, "explaining", Some(reader.size()));
    walk.over(reader)
}

impl Walk<'_> {
    /// Takes all frames.
    fn over(mut self, mut reader: FrameReader) -> Result<(), Failure> {
        loop {
            match reader.next().map_err(|error| temporary_failure(&error))? {
                Some(Entry { came, found: Logged::Frames(frames) }) => self.take(&came, &frames)?,
                Some(Entry { found: Logged::Unplaced(_), .. }) => {}
                None => return self.end(),
            }
        }
    }

    fn take(&mut self, came: &Came, frames: &Frames<'_>) -> Result<(), Failure> {
        let walked = match self.walked.get_mut(came.connection) {
            Some(Some(walked)) => walked,
            _ => return Ok(()),
        };
        let course = &mut self.courses.connections[came.connection];
        let connection = begun(walked, course, &self.asking, &self.across)?;
        connection.take(&mut self.asking, came, frames)?;
        if connection.is_over() {
            return self.end_one(came.connection);
        }
        if self.asking.live.get() > self.most_live {
            self.park();
        }
        Ok(())
    }

    fn end_one(&mut self, number: usize) -> Result<(), Failure> {
        let mut walked = match self.walked.get_mut(number).and_then(Option::take) {
            Some(walked) => walked,
            None => return Ok(()),
        };
        begun(&mut walked, &mut self.courses.connections[number], &self.asking, &self.across)?;
        if let State::Begun(connection) = walked.state {
            let said = &mut self.answer.connections[walked.index];
            said.requests = Requests::of(connection.end(said)?);
            self.across.take(walked.root.unwrap_or(number), &said.requests);
            if let Some(packet) = walked.until {
                said.requests.end_before(packet);
                said.stalls.retain(|stall| stall.begin.packet < packet);
            }
            if walked.until.is_some() || behind(said).is_some() {
                said.faults.retain(|fault| fault.certainty != Certainty::Gap);
            }
        }
        Ok(())
    }

    /// Packs streams that go on, of one connection after the other, until few enough are left.
    fn park(&mut self) {
        for _ in 0..self.walked.len() {
            self.next = (self.next + 1) % self.walked.len();
            if let Some(Walked { state: State::Begun(connection), .. }) = &mut self.walked[self.next] {
                connection.park();
            }
            if self.asking.live.get() <= self.most_live / 2 {
                return;
            }
        }
        self.most_live = MOST_LIVE.max(2 * self.asking.live.get());
    }

    fn end(mut self) -> Result<(), Failure> {
        (0..self.walked.len()).try_for_each(|number| self.end_one(number))?;
        tell_faults_once(&mut self.answer.connections);
        let texts = Rc::new(self.asking.interner.into_texts());
        self.answer.connections.iter_mut().for_each(|one| one.requests.with_texts(&texts));
        Ok(())
    }
}

fn other_connections() -> Failure {
    broken("it has other connections")
}

/// The connection, which begins with its first frames.
fn begun<'a>(
    walked: &'a mut Walked,
    course: &mut Option<Box<import::TcpCourse>>,
    asking: &Asking,
    across: &Across,
) -> Result<&'a mut WalkedConnection, Failure> {
    if !matches!(walked.state, State::Begun(_)) {
        begin(walked, course, asking, across)?;
    }
    match &mut walked.state {
        State::Begun(connection) => Ok(connection),
        State::Ahead(..) | State::Over => Err(other_connections()),
    }
}

#[inline(never)]
fn begin(
    walked: &mut Walked,
    course: &mut Option<Box<import::TcpCourse>>,
    asking: &Asking,
    across: &Across,
) -> Result<(), Failure> {
    if let State::Ahead(known, audit, inferred) = std::mem::replace(&mut walked.state, State::Over) {
        let asked = walked.root.zip(inferred.as_ref()).map(|(root, inferred)| across.asked(root, inferred));
        let mut course = course.take().ok_or_else(other_connections)?;
        let mut connection = WalkedConnection::new(known, *audit, &mut course, inferred, asking)?;
        connection.goes_on_with(asked.unwrap_or_default());
        walked.state = State::Begun(connection);
    }
    Ok(())
}

/// What is said of a connection before its frames are; and what these are walked over with.
fn said_at_first(
    made: &mut Made,
    mut audit: Box<Audit>,
    number: usize,
) -> Result<(ConnectionSaid, Option<State>), Failure> {
    let other = other_connections;
    let mut known = made.known.get_mut(number).and_then(Option::take).ok_or_else(other)?;
    if made.summary.reordered.is_some() {
        known.help = LATER;
    }
    let outcome = made.summary.outcomes.get(number).ok_or_else(other)?;
    let course = made.courses.connections.get(number).and_then(Option::as_deref).ok_or_else(other)?;
    if audit.record != known.record || known.opened.packet != outcome.opening {
        return Err(other());
    }
    let (client, server) = made.addresses.endpoints(&outcome.ends);
    let mut said = unsaid(audit.number, client, server, known.opened);
    said.joined = how_joined(&made.summary, number).map(Box::new);
    let inferred = said.joined.as_ref().and_then(|joined| joined.inferred()).cloned().map(Rc::new);
    let is_sound = match &inferred {
        Some(inferred) => without_beginning(&mut audit, inferred)?,
        None => true,
    };
    said.frames = audit.frames().unwrap_or(0);
    said.late = known.late;
    let uncaptured = course.sides.iter().enumerate().map(|(side, one)| (side_of(side), one.uncaptured));
    said.uncaptured = uncaptured.filter(|(_, found)| found.bytes > 0).collect();
    let spoken = known.spoken.map(|one| one.0);
    said.until = last_of(course, known.last).time;
    match &outcome.became {
        Became::Refused(why) => {
            say_refused(&mut said, &why.to_string(), course, spoken);
            return Ok((said, None));
        }
        Became::Clear => {}
        became => said.tls = became.words().strip_prefix("tls ").unwrap_or_default().to_string(),
    }
    say_flows(&mut said, &mut audit, known.made_bytes, &outcome.became);
    said.outcome = outcome_of(&audit.form).ok_or_else(other)?;
    said.reason = reason_of(said.outcome, course, spoken).unwrap_or_default().to_string();
    if !is_sound {
        (said.outcome, said.reason) = (Outcome::NoPreface, NO_BEGINNING.to_string());
    }
    if !said.is_audited() {
        return Ok((said, None));
    }
    said.notes.extend(note_of(known.spoken[import::SERVER]));
    let made_frames: u32 = inferred.as_ref().map_or(0, |inferred| inferred.made.iter().sum());
    if !known.is_http2 || said.frames != u64::from(known.frames) || known.made != made_frames {
        let (number, frames, here) = (said.number, said.frames, known.frames);
        return Err(broken(&format!("connection {number} has {frames} frames by the report, and {here} here")));
    }
    Ok((said, Some(State::Ahead(known, audit, inferred))))
}

/// Connections of which nothing is said, though they were joined.
pub fn untold(summary: &Summary, courses: &Courses) -> HashSet<usize> {
    let joined_as = |fate: Fate| match fate {
        Fate::Joined(connection) => Some(connection),
        Fate::NotAsked | Fate::Unjoined(_) => None,
    };
    let pairs = summary.unopened.iter().filter(|pair| !is_told(pair, courses)).map(|pair| pair.fate);
    let gaps = summary.gaps.iter().map(|gap| gap.fate).filter(|fate| !is_joined_and_told(*fate, courses));
    pairs.chain(gaps).filter_map(joined_as).collect()
}

/// The packet from which on a connection goes on as another one that is told.
fn goes_on_at(summary: &Summary, courses: &Courses, number: usize) -> Option<u64> {
    let from = summary.gaps.partition_point(|gap| gap.connection < number);
    let gaps = summary.gaps[from..].iter().take_while(|gap| gap.connection == number);
    gaps.filter(|gap| is_joined_and_told(gap.fate, courses)).map(|gap| gap.first.packet).next()
}

/// A connection of which nothing is said yet.
pub fn unsaid(number: u64, client: String, server: String, opened: At) -> ConnectionSaid {
    let ended = Ended { how: Ending::Capture, side: None, code: None, at: None };
    ConnectionSaid {
        number,
        client,
        server,
        opened,
        outcome: Outcome::Http2,
        joined: None,
        reason: String::new(),
        tls: String::new(),
        frames: 0,
        begin: opened.time,
        until: opened.time,
        round_trip: RoundTrip::default(),
        captured_at: None,
        limits: Vec::new(),
        settings: Vec::new(),
        faults: Vec::new(),
        stalls: Vec::new(),
        leaks: Vec::new(),
        holders: Vec::new(),
        requests: Requests::default(),
        signals: Vec::new(),
        ended,
        closing: ended,
        notes: Vec::new(),
        stopped_at: None,
        gaps: Vec::new(),
        uncaptured: Vec::new(),
        late: 0,
        print: Default::default(),
        flows: Vec::new(),
        charts: ChartsSaid::default(),
        all_frames: None,
    }
}
