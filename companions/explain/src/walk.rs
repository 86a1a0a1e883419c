//! The second walk over one connection: its frames, in the order of the report's numbers.

mod content;
mod directions;
mod making;
mod opening;

use std::cell::Cell;
use std::collections::HashMap;
use std::rc::Rc;

use programs::Failure;

use crate::answer::{At, Nanos, Place};
use crate::beginning::Beginning;
use crate::blocks::{Blocks, Names};
use crate::bursts::Bursts;
use crate::charts::{Charts, Choice, Left};
use crate::cutter::{flag, kind, Cut, Numbers};
use crate::findings::{Findings, Here};
use crate::intervals::Interval;
use crate::leaks::Leaks;
use crate::learning::Known;
use crate::names::Interner;
use crate::seen::{About, Key};
use crate::settings::{Settings, Values};
use crate::signals::Signals;
use crate::stream::{RequestFields, Reset, Total};
use crate::table::Table;
use crate::unanswered::Unanswered;
use crate::unshown::Unshown;
use crate::windows::{ConnectionWindow, Initial};

const STREAM: u32 = (1 << 31) - 1;
const GOAWAY_FIELDS: usize = 8;
/// So many stretches in which a side sent are kept; more are where a stream goes on from before all of them.
pub const MOST_KEPT: usize = 1024;
/// How many streams that are not opened yet have their grants remembered, and how many grants each.
const MOST_EARLY: usize = 256;

/// What is asked of all connections.
pub struct Asking {
    pub names: Names,
    pub has_spans: bool,
    pub has_frames: bool,
    /// Whether both legs of proxies are looked for.
    pub has_legs: bool,
    /// What is shown in charts, where they are asked for.
    pub charts: Option<Rc<Choice>>,
    pub interner: Interner,
    /// How numbers of streams are hashed; and how many streams are not packed.
    pub numbers: Numbers,
    pub live: Rc<Cell<usize>>,
}

/// What the frames of a connection told so far.
pub struct Walk {
    pub about: About,
    pub known: Box<Known>,
    /// The number of the last frame, and that at which the audit stopped.
    pub number: u32,
    pub stopped_at: Option<u32>,
    pub stop: Option<At>,
    pub initials: [Initial; 2],
    pub windows: [ConnectionWindow; 2],
    pub settings: Settings,
    pub table: Table,
    pub blocks: [Blocks; 2],
    pub signals: Signals,
    pub findings: Findings,
    pub leaks: [Option<Box<Leaks>>; 2],
    pub unanswered: Unanswered,
    pub bursts: Bursts,
    /// Where stalls of a side may not show: the connection's credit as it is known there, and pauses without it.
    pub unshown: [Option<(Unshown, Vec<Interval>)>; 2],
    /// Whether a side sent more on a stream than its window held at once.
    pub uses_window: [bool; 2],
    /// What each side sent on all streams, and how many stretches of it are kept.
    pub totals: [Total; 2],
    pub most_kept: [usize; 2],
    /// The stream of a frame that the other side has begun.
    pub begun: Option<u32>,
    /// What of a frame's grant would be too high.
    pub overflow: Option<i64>,
    /// Grants for streams that are not opened yet: by the side that may send, with their times.
    pub early_grants: HashMap<Key, Vec<(Nanos, u32)>>,
    pub charts: Option<Box<Charts>>,
    /// What was made up of a connection that began before the capture, and whether a frame of each side was captured.
    pub beginning: Option<Box<Beginning>>,
    /// What the requests of streams that were open across a gap asked for.
    pub asked_before: HashMap<u32, RequestFields>,
    pub has_frames: [bool; 2],
}

/// A frame of a side: when its packets came, where it ends, and at which record.
#[derive(Clone, Copy)]
pub struct Frame<'a> {
    side: usize,
    cut: &'a Cut<'a>,
    at: At,
    record: u64,
    /// Whether the report judges it.
    is_judged: bool,
    /// Whether it is its side's first.
    is_first: bool,
}

impl Walk {
    /// The sides of which stalls may not show are those that send to where the capture was made.
    pub fn unshown_of(about: &About, side: usize) -> Option<Nanos> {
        let receiver = [Place::AtServer, Place::AtClient][side];
        let is_known = about.inferred.is_none() && about.captured_at == Some(receiver);
        is_known.then(|| about.round_trip.nanos().unwrap_or(0))
    }

    /// Takes the next frame, which a side sent.
    pub fn take(
        &mut self,
        asking: &mut Asking,
        side: usize,
        cut: &Cut<'_>,
        (record, at): (u64, At),
    ) -> Result<(), Failure> {
        if self.beginning.as_ref().map_or(false, |beginning| beginning.left > 0) {
            self.make_up(asking, &Frame { side, cut, at, record, is_judged: true, is_first: false });
            return Ok(());
        }
        self.number += 1;
        let at = At { frame: self.number, ..at };
        let is_judged = self.stopped_at.map_or(true, |stop| self.number < stop);
        if self.stopped_at == Some(self.number) {
            self.stop = Some(at);
        }
        let is_first = !std::mem::replace(&mut self.has_frames[side], true);
        let frame = &Frame { side, cut, at, record, is_judged, is_first };
        if let kind::DATA | kind::HEADERS | kind::PUSH_PROMISE | kind::CONTINUATION = cut.head.kind {
            self.about.courses[side].sent(cut.times);
        }
        match cut.head.kind {
            kind::DATA => self.data(frame),
            kind::WINDOW_UPDATE => self.grant(frame),
            _ => self.other(asking, frame),
        }
        self.after(frame)
    }

    /// Takes a frame of a kind that is rare beside DATA and WINDOW_UPDATE.
    #[inline(never)]
    fn other(&mut self, asking: &mut Asking, frame: &Frame<'_>) {
        match frame.cut.head.kind {
            kind::HEADERS => self.headers(asking, frame),
            kind::RST_STREAM => self.reset(frame),
            kind::SETTINGS => self.settings(asking, frame),
            kind::PUSH_PROMISE => self.promise(asking, frame),
            kind::GOAWAY => self.goaway(frame),
            kind::CONTINUATION => self.continuation(asking, frame),
            _ => {}
        }
    }

    /// Findings stand at a frame.
    #[inline(never)]
    fn find(&mut self, frame: &Frame<'_>) -> Result<(), Failure> {
        let Walk { findings, about, known, settings, table, initials, windows, overflow, .. } = self;
        let (at, record, kind) = (frame.at, frame.record, frame.cut.head.kind);
        let is_first = frame.is_first;
        let here = Here { at, record, kind, is_first, overflow: *overflow, known, about, settings };
        findings.take(&here, |window| credit_of(window, table, initials, windows))
    }

    /// All that a frame does is done.
    fn after(&mut self, frame: &Frame<'_>) -> Result<(), Failure> {
        if self.findings.stands_at(self.number) {
            self.find(frame)?;
        }
        if !matches!(self.leaks, [None, None]) {
            self.leaks.iter_mut().flatten().for_each(|leaks| leaks.after(self.number, &self.table));
        }
        self.overflow = None;
        if self.charts.is_some() {
            self.chart(frame);
        }
        self.about.courses[frame.side].came(frame.at.time);
        let head = &frame.cut.head;
        if self.known.back.is_none() {
            if head.kind == kind::RST_STREAM || head.has(flag::END_STREAM) {
                self.settle(head.stream);
            }
            if self.about.courses[frame.side].kept() > self.most_kept[frame.side] {
                self.forget(frame.side);
            }
        }
        Ok(())
    }

    #[inline(never)]
    fn chart(&mut self, frame: &Frame<'_>) {
        let Walk { charts, table, initials, windows, .. } = self;
        let (kind, stream) = (frame.cut.head.kind, frame.cut.head.stream);
        let left = Left { at: frame.at, kind, stream, table, initials, windows };
        charts.iter_mut().for_each(|charts| charts.after(&left));
    }

    /// Divides what is left of the lives of a stream that is over, and packs it. A frame that has begun belongs to it.
    #[inline(never)]
    fn settle(&mut self, number: u32) {
        let Walk { table, about, begun, .. } = self;
        table.settle(number, |stream| {
            for (side, one) in stream.sides.iter_mut().enumerate() {
                one.end_beside();
                let end = one.end.filter(|end| *begun != Some(number) && one.life.at < end.time);
                if let Some(end) = end {
                    one.finish(&about.holding(side, number), end.time, false);
                }
            }
        });
    }

    /// Lets go of stretches before all that is to be divided.
    #[inline(never)]
    fn forget(&mut self, side: usize) {
        let mut needed = Nanos::MAX;
        self.table.each_going_on(|stream| {
            let one = &stream.sides[side];
            if one.life.has_begun && one.end.is_none() {
                needed = needed.min(one.life.at);
            }
        });
        let course = &mut self.about.courses[side];
        course.forget(needed);
        self.most_kept[side] = MOST_KEPT.max(2 * course.kept());
    }

    fn reset(&mut self, frame: &Frame<'_>) {
        let Frame { side, cut, at, .. } = *frame;
        let code = match cut.number() {
            Some(code) if cut.head.length == 4 => code,
            _ => return,
        };
        let Walk { table, initials, leaks, signals, unanswered, bursts, uses_window, totals, about, .. } = self;
        table.touch(cut.head.stream, |stream| {
            if stream.reset.is_some() {
                return;
            }
            let reset = Reset { side, at, code };
            stream.sides.iter_mut().zip(&*initials).for_each(|(one, initial)| one.window.end(initial));
            for (one, total) in stream.sides.iter().zip(totals) {
                total.ended += u32::from(one.end.is_none() && one.content > 0);
            }
            stream.reset(reset);
            leaks.iter_mut().flatten().for_each(|leaks| leaks.reset(stream));
            signals.reset(stream, &reset);
            bursts.reset(side, at, code);
            if about.inferred.is_none() {
                unanswered.reset(side, at, code, (stream, &initials[side]));
            }
            stream.note_use(uses_window);
        });
    }

    fn settings(&mut self, asking: &Asking, frame: &Frame<'_>) {
        let Frame { side, cut, at, is_judged, .. } = *frame;
        if cut.head.has(flag::ACK) {
            let initial = if cut.head.length == 0 { self.settings.acknowledged(side, at) } else { None };
            if cut.head.length == 0 && self.about.inferred.is_none() {
                self.unanswered.acknowledged(side, at);
            }
            if let Some(initial) = initial.filter(|_| is_judged) {
                self.initials[side].change(i64::from(initial));
            }
            return;
        }
        if cut.head.length % 6 != 0 {
            return;
        }
        let Values { header_table, values } = Values::of(cut.payload);
        if self.about.inferred.is_none() {
            self.unanswered.sent(side, at, &values, (&self.table, &self.initials[1 - side]));
        }
        self.settings.sent(side, at, values);
        if let Some(size) = header_table.filter(|_| asking.names.are_wanted) {
            self.blocks[1 - side].allow_table(size);
        }
    }

    fn goaway(&mut self, frame: &Frame<'_>) {
        let Frame { side, cut, at, .. } = *frame;
        if let Some([a, b, c, d, e, f, g, h]) =
            cut.payload.get(..GOAWAY_FIELDS).and_then(|front| <[u8; 8]>::try_from(front).ok())
        {
            let (last, code) = (u32::from_be_bytes([a, b, c, d]) & STREAM, u32::from_be_bytes([e, f, g, h]));
            self.signals.goaway(side, at, (last, code), &cut.payload[GOAWAY_FIELDS..]);
            self.unanswered.goaway(side, at, code);
        }
    }

    fn grant(&mut self, frame: &Frame<'_>) {
        let Frame { side, cut, at, is_judged, .. } = *frame;
        let (amount, sender, number) = match cut.number() {
            Some(amount) if cut.head.length == 4 => (amount & STREAM, 1 - side, cut.head.stream),
            _ => return,
        };
        let is_in_order = self.known.back.is_none();
        if let Some(grants) = self.findings.grants.get_mut(&(sender, number)) {
            grants.add(at, amount);
        }
        if number == 0 {
            self.windows[sender].grant(if is_judged { amount } else { 0 });
            if let Some((unshown, _)) = &mut self.unshown[sender] {
                unshown.grant(at.time, amount, is_in_order);
            }
            if let Some(leaks) = &mut self.leaks[sender] {
                leaks.grant(amount);
            }
            return;
        }
        let Walk { table, initials, overflow, early_grants, .. } = self;
        let touched = table.touch(number, |stream| {
            let one = &mut stream.sides[sender];
            if is_judged {
                *overflow = one.window.grant(&initials[sender], amount);
            }
            one.granted(at.time, amount, is_in_order);
        });
        if touched.is_none() && (early_grants.len() < MOST_EARLY || early_grants.contains_key(&(sender, number))) {
            let grants = early_grants.entry((sender, number)).or_default();
            if grants.len() < MOST_EARLY {
                grants.push((at.time, amount));
            }
        }
    }
}

/// What is left of a window.
fn credit_of(
    (side, stream): Key,
    table: &Table,
    initials: &[Initial; 2],
    windows: &[ConnectionWindow; 2],
) -> Option<i64> {
    match stream {
        0 => Some(windows[side].credit),
        _ => table.look(stream, |stream| stream.sides[side].window.value(&initials[side])).flatten(),
    }
}
