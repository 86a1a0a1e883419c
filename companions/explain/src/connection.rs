//! The second walk over one connection: its frames, and at its end all that is said of it.

use std::collections::HashMap;
use std::rc::Rc;

use captures::Arrival;
use joined::Inferred;
use programs::Failure;

use crate::answer::{ConnectionSaid, Nanos, RoundTrip, Source, StallSaid, StallWhy};
use crate::audit::{broken, Audit};
use crate::beginning::Beginning;
use crate::blocks::Blocks;
use crate::charts::Charts;
use crate::course::{SideCourse, Waits};
use crate::doubts::limits_of;
use crate::findings::Findings;
use crate::frame_log::{self, Came};
use crate::frames::Frames;
use crate::intervals::Stretches;
use crate::leaks::{Candidate, Leaks};
use crate::learning::Known;
use crate::legs::print::Printing;
use crate::requests::Packed;
use crate::rounds::round_trip_of;
use crate::seen::{end_of, About, Goaways, Seen, WindowStalls};
use crate::side_of;
use crate::stalls::may_be_leaks;
use crate::stream::{RequestFields, Stream};
use crate::table::Table;
use crate::tcp::Tcp;
use crate::unanswered::Unanswered;
use crate::unshown::Unshown;
use crate::walk::{Asking, Walk, MOST_KEPT};
use crate::windows::FIRST_CREDIT;
use crate::words::time_of;

/// The time of a first answer is told where it is so long, and so many round trips.
const LONG_ANSWER: Nanos = 100_000_000;
const LONG: Nanos = 4;

/// A connection whose frames come.
pub struct WalkedConnection {
    walk: Walk,
    frames: u64,
    all_frames: Option<Box<Frames>>,
    /// Where both legs of proxies are looked for.
    print: Option<Box<[Printing; 2]>>,
}

impl WalkedConnection {
    /// Begins a connection, from what the import, the first walk and the report say of it.
    pub fn new(
        known: Box<Known>,
        audit: Audit,
        course: &mut import::TcpCourse,
        inferred: Option<Rc<Inferred>>,
        asking: &Asking,
    ) -> Result<Box<WalkedConnection>, Failure> {
        let frames = audit.frames().unwrap_or(0);
        let stop = stop_of(&audit)?;
        let all_frames = asking.has_frames.then(|| Box::new(Frames::new(known.initials, course)));
        let about = About { inferred, ..about(&known, &audit, course, stop) };
        let charts = asking.charts.as_ref().map(|choice| {
            let mut charts = Box::new(Charts::new(choice, &audit, asking.numbers));
            charts.begins_with_first_credit = about.inferred.is_none();
            charts
        });
        let findings = Findings::new(audit.faults, &audit.stalls, &about);
        let unshown =
            [0, 1].map(|side| Walk::unshown_of(&about, side).map(|nanos| (Unshown::of_connection(nanos), Vec::new())));
        let print = asking.has_legs.then(|| Box::new([(); 2].map(|()| Printing::new(asking.numbers))));
        Ok(Box::new(WalkedConnection {
            walk: Walk {
                number: 0,
                stopped_at: audit.stopped_at,
                stop: None,
                initials: Default::default(),
                windows: Default::default(),
                settings: Default::default(),
                table: Table::new(about.round_trip.nanos().unwrap_or(0), asking.numbers, asking.live.clone())
                    .with_briefs(asking.has_legs),
                blocks: [(); 2].map(|()| Blocks::new(asking.names.are_wanted)),
                signals: Default::default(),
                leaks: if about.inferred.is_none() { leaks_of(&findings.stalls) } else { [None, None] },
                findings,
                unanswered: Unanswered::new(known.unanswered.clone(), known.acknowledged),
                bursts: Default::default(),
                unshown,
                uses_window: [false; 2],
                totals: Default::default(),
                most_kept: [MOST_KEPT; 2],
                begun: None,
                overflow: None,
                early_grants: Default::default(),
                charts,
                beginning: about.inferred.clone().map(|inferred| Box::new(Beginning::new(inferred))),
                asked_before: HashMap::new(),
                has_frames: [false; 2],
                about,
                known,
            },
            frames,
            all_frames,
            print,
        }))
    }

    /// What requests asked for that were open across a gap, by their streams.
    pub fn goes_on_with(&mut self, asked: HashMap<u32, RequestFields>) {
        self.walk.asked_before = asked;
    }

    /// Takes the frames that a record of it completed.
    pub fn take(&mut self, asking: &mut Asking, came: &Came, frames: &frame_log::Frames<'_>) -> Result<(), Failure> {
        let Came { record, at, side, .. } = *came;
        self.walk.begun = frames.begun;
        frames.each(|cut| {
            self.all_frames.iter_mut().for_each(|frames| frames.take(side_of(side), cut, at));
            self.print.iter_mut().for_each(|print| print[side].take(cut, at.time));
            self.walk.take(asking, side, cut, (record, at))
        })
    }

    /// Packs streams that go on.
    pub fn park(&mut self) {
        self.walk.table.park();
    }

    /// Whether no more frames of it come.
    pub fn is_over(&self) -> bool {
        self.walk.number == self.walk.known.frames
    }

    /// All that is said of it, and what its requests are told from.
    pub fn end(mut self: Box<Self>, said: &mut ConnectionSaid) -> Result<Rc<(Packed, Seen)>, Failure> {
        if u64::from(self.walk.number) != self.frames {
            let (number, frames, here) = (said.number, self.frames, self.walk.number);
            let why = format!("connection {number} has {frames} frames by the report, and {here} here");
            return Err(broken(&why));
        }
        if !self.walk.findings.is_done() {
            return Err(broken(&format!("connection {} has findings at frames that are not there", said.number)));
        }
        self.walk.leaks.iter_mut().flatten().for_each(|leaks| leaks.end());
        self.cut_frames();
        said.all_frames = self.all_frames.take();
        said.print = self.print.take().map_or_else(Default::default, |print| print.map(|one| one.end()));
        Ok(ended(self, said))
    }

    /// Adds the packets of a frame whose rest did not come to its stream, which is over.
    fn cut_frames(&mut self) {
        let Walk { table, about, signals, known, .. } = &mut self.walk;
        if known.back.is_some() {
            return;
        }
        for (side, cut) in known.cuts.iter().enumerate() {
            if let Some((number, times)) = cut {
                table.touch(*number, |stream| {
                    let end = end_of(stream, side, (&signals.refusing, signals.error()), &about.tcp);
                    let until = end.at.map_or(stream.opened.time, |at| at.time);
                    let holding = about.holding(side, *number);
                    let one = &mut stream.sides[side];
                    one.life.until = until.max(one.life.at);
                    one.cut(&holding, times);
                    one.finish(&holding, until, true);
                });
            }
        }
    }
}

/// When the frame at which the audit stopped came: the error that stopped it stands there.
fn stop_of(audit: &Audit) -> Result<Option<Nanos>, Failure> {
    let frame = match audit.stopped_at {
        Some(frame) => frame,
        None => return Ok(None),
    };
    if audit.stop.is_some() {
        return Ok(audit.stop);
    }
    let error = audit.faults.last().filter(|fault| fault.frame == u64::from(frame));
    let time = error.and_then(|fault| Nanos::try_from(fault.time).ok());
    time.map(Some).ok_or_else(|| broken("it stopped without an error"))
}

fn about(known: &Known, audit: &Audit, course: &mut import::TcpCourse, stop: Option<Nanos>) -> About {
    let missing = known.gaps.iter().copied().chain(course.sides.iter().map(|side| side.uncaptured.first));
    let lost = missing.flatten().map(|first| first.nanos).min().unwrap_or(Nanos::MAX);
    let unseen = lost.min(stop.unwrap_or(Nanos::MAX));
    let handshake = handshake_of(course);
    let ways = [0, 1].map(|side| course.ways[side].or(handshake[side]));
    let round_trip = round_trip_of(ways, &known.quickest);
    let tcp = Tcp::new(course, known.last);
    let pause = round_trip.pause();
    let courses = [0, 1].map(|side| {
        let stalls = audit.stalls.iter().filter(|one| one.stream == 0 && one.side == side);
        let stalls = stalls.map(|one| (one.begin.time, one.end.map_or(Nanos::MAX, |end| end.time).min(unseen)));
        let waits = Waits { own: tcp.held_before(side), asked: tcp.sent_again(1 - side) };
        SideCourse::new(stalls.collect(), tcp.held_times(side), pause, unseen).with_waits(waits)
    });
    About {
        opened: known.opened,
        captured_at: round_trip.place(),
        rest: round_trip.nanos().unwrap_or(0) / 8,
        round_trip,
        unseen,
        lost,
        courses,
        stalls: About::stalls_of(&audit.stalls, unseen),
        inferred: None,
        tcp,
    }
}

/// From SYN to SYN ACK the way to the server and back, from there to ACK that to the client, whatever they acknowledge.
fn handshake_of(course: &import::TcpCourse) -> [Option<Nanos>; 2] {
    let way = |from: Option<Arrival>, to: Option<Arrival>| Some(to?.nanos.saturating_sub(from?.nanos));
    let ways = [way(course.syn_ack, course.ack), way(Some(course.syn), course.syn_ack)];
    ways.map(|way| way.filter(|nanos| *nanos >= 0))
}

fn leaks_of(stalls: &[StallSaid]) -> [Option<Box<Leaks>>; 2] {
    let candidates = may_be_leaks(stalls);
    [0, 1].map(|side| {
        let of_side = candidates.iter().filter(|at| stalls[**at].side as usize == side);
        let found: Vec<Candidate> = of_side
            .map(|at| Candidate {
                stall: *at,
                begin: stalls[*at].begin.frame,
                end: stalls[*at].end.map(|end| end.frame),
            })
            .collect();
        (!found.is_empty()).then(|| Box::new(Leaks::new(side, found)))
    })
}

type CutFrames = [Option<(u32, Box<[Nanos]>)>; 2];

fn ended(one: Box<WalkedConnection>, said: &mut ConnectionSaid) -> Rc<(Packed, Seen)> {
    let Walk { mut about, known, table, initials, windows, settings, blocks, signals, findings, leaks, .. } = one.walk;
    let Walk { unanswered, bursts, unshown, mut uses_window, stop, charts, beginning, .. } = one.walk;
    let doubtful = beginning.iter().flat_map(|beginning| beginning.doubtful()).collect();
    if let (Some(joined), Some(beginning)) = (&mut said.joined, beginning) {
        joined.windows = beginning.windows();
    }
    let is_kept = known.back.is_some();
    let packed = table.end(|stream| {
        stream.sides.iter_mut().zip(&initials).for_each(|(one, initial)| one.window.look(initial));
        finish(stream, &about, (&signals.refusing, signals.error()), is_kept.then_some(&known.cuts));
        stream.note_content(&mut uses_window);
    });
    about.courses.iter_mut().for_each(|course| course.forget(Nanos::MAX));
    said.round_trip = about.round_trip;
    said.captured_at = about.captured_at;
    said.until = about.tcp.last.time.max(said.begin);
    said.charts = charts.map(|charts| charts.end((said.begin, said.until), said.frames)).unwrap_or_default();
    said.limits = limits_of(&about.round_trip, about.captured_at, uses_window);
    let has_overflow = findings.said.iter().any(|fault| fault.finding.kind.name() == "setting-overflow");
    said.notes.extend(unanswered.said(has_overflow));
    said.notes.extend(bursts.said());
    said.notes.extend((0..2).filter_map(|side| first_answer(&known, &about.round_trip, side)));
    said.notes.extend(blocks.iter().zip(["requests", "answers"]).filter_map(|(blocks, whose)| blocks.unknown(whose)));
    said.stopped_at = stop;
    said.closing = about.tcp.closing(about.opened.time);
    said.ended = signals.error().unwrap_or(said.closing);
    said.faults = findings.said;
    let (refusing, error) = (signals.refusing, signals.error());
    said.signals = signals.said();
    stalls_and_leaks(said, findings.stalls, leaks);
    let (told, changes) = settings.said();
    said.settings = told;
    let unshown = unshown.map(|one| {
        let found = one.map(|one| one.1).filter(|found| !found.is_empty())?;
        Some(Box::new(Stretches::new(found.into_iter().map(|(begin, end)| (begin, end, ())).collect())))
    });
    // What is kept goes where that was.
    drop(known);
    let seen = Seen {
        windows: WindowStalls::by_window(&said.stalls),
        refusing,
        error,
        connection_windows: windows.map(|window| window.largest.unwrap_or(0).max(FIRST_CREDIT)),
        granted_windows: windows.map(|window| window.first.unwrap_or(0).max(window.credit).max(FIRST_CREDIT)),
        unshown,
        changes,
        doubtful,
        about: Box::new(about),
    };
    Rc::new((packed, seen))
}

fn stalls_and_leaks(said: &mut ConnectionSaid, mut stalls: Vec<StallSaid>, leaks: [Option<Box<Leaks>>; 2]) {
    said.holders = leaks.iter().flatten().flat_map(|leaks| leaks.holders.iter().copied()).collect();
    for (stall, leak) in leaks.into_iter().flatten().flat_map(|leaks| leaks.found) {
        if let Some(stall) = stalls.get_mut(stall) {
            stall.why = StallWhy::CancelledStreams;
        }
        said.leaks.push(leak);
    }
    stalls.sort_by_key(|one| (one.begin.frame, one.stream, one.side as usize));
    said.leaks.sort_by_key(|one| (one.begin, one.side));
    said.stalls = stalls;
}

/// Divides what is left of the life of a stream; all of it, where times go back.
fn finish(stream: &mut Stream, about: &About, goaways: Goaways<'_>, cuts: Option<&CutFrames>) {
    for side in 0..2 {
        let end = end_of(stream, side, goaways, &about.tcp);
        let until = end.at.map_or(stream.opened.time, |at| at.time);
        let (opened, holding) = (stream.opened.time, about.holding(side, stream.number));
        match cuts {
            Some(cuts) => {
                let cut = cuts[side].as_ref().filter(|cut| cut.0 == stream.number).map(|cut| &cut.1[..]);
                stream.sides[side].finish_kept(&holding, opened, until, cut);
            }
            None => stream.sides[side].finish(&holding, until, false),
        }
    }
}

/// How long a side took for its first reaction, where that is no way but its own time.
fn first_answer(known: &Known, round_trip: &RoundTrip, side: usize) -> Option<String> {
    let (took, way) = (known.quickest[side].first?, round_trip.nanos()?);
    let is_own = round_trip.source == Some(Source::Tcp) && took >= LONG_ANSWER && took >= way.saturating_mul(LONG);
    is_own.then(|| {
        let (side, took, way) = (side_of(side), time_of(took), time_of(way));
        format!("the {side}'s first answer took {took}: its own time, since a round trip takes {way}")
    })
}
