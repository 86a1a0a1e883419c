//! The charts of a connection: the credit of its windows as the walk counts it, for those that are shown.

use std::cell::Cell;
use std::collections::{HashMap, HashSet};
use std::rc::Rc;

use reports::Side;

use crate::answer::{At, Nanos};
use crate::audit::Audit;
use crate::cutter::kind;
use crate::cutter::Numbers;
use crate::seen::Key;
use crate::series::{Point, Room, Series};
use crate::side_of;
use crate::table::Table;
use crate::windows::{ConnectionWindow, Initial, FIRST_CREDIT};

/// So many windows of streams are shown, those with trouble first; and so many points of all of them.
const MOST_WINDOWS: usize = 2048;
const MOST_POINTS: usize = 1 << 15;

/// A window that is shown.
#[derive(Clone, Debug, PartialEq, Eq)]
pub struct Charted {
    pub side: Side,
    /// 0 is the connection's window.
    pub stream: u64,
    pub points: Vec<Point>,
    /// How often its credit changed, the least, the greatest and the last of it.
    pub count: u64,
    pub least: i64,
    pub greatest: i64,
    pub last: i64,
}

/// The windows that are not shown: how many, and the least and the greatest credit of them.
#[derive(Clone, Copy, Debug, Default, PartialEq, Eq)]
pub struct Others {
    pub count: u64,
    pub extremes: Option<(i64, i64)>,
}

/// What is shown of a connection.
#[derive(Clone, Debug, Default, PartialEq, Eq)]
pub struct ChartsSaid {
    /// In the order of their first points.
    pub windows: Vec<Charted>,
    pub others: Others,
}

/// What of all connections is shown.
#[derive(Debug)]
pub struct Choice {
    room: Room,
    /// So many more windows are shown of which no finding tells.
    left: Cell<usize>,
    /// The windows of which a finding tells, by the connection's number in the report.
    troubled: HashSet<(u64, Key)>,
}

/// The charts of one connection.
#[derive(Debug)]
pub struct Charts {
    number: u64,
    choice: Rc<Choice>,
    connection: [Series; 2],
    streams: HashMap<u32, [Option<Chart>; 2], Numbers>,
    /// The initial windows for what each side sends, which move all its streams.
    initials: [Series; 2],
    others: Others,
    /// Frames with findings about a window, the last first.
    marks: Vec<(u64, Key)>,
    /// Windows whose last stall has no end.
    open: HashSet<Key>,
    /// The stream that the frame opened.
    pub opened: Option<u32>,
    /// Whether the windows of the connection begin with 65,535 bytes, as where its beginning was captured.
    pub begins_with_first_credit: bool,
}

/// A stream's window, with its credit beside the initial window while it is live, and how often that had changed.
#[derive(Debug, Default)]
struct Chart {
    series: Series,
    beside: Option<i64>,
    changes: u64,
}

/// What a frame left.
pub struct Left<'a> {
    pub at: At,
    pub kind: u8,
    /// The stream that it is on.
    pub stream: u32,
    pub table: &'a Table,
    pub initials: &'a [Initial; 2],
    pub windows: &'a [ConnectionWindow; 2],
}

impl Others {
    pub fn add(&mut self, least: i64, greatest: i64) {
        let (low, high) = self.extremes.unwrap_or((least, greatest));
        self.extremes = Some((low.min(least), high.max(greatest)));
    }
}

impl Choice {
    /// Chooses windows with trouble first: by faults, then by the time of their stalls.
    pub fn of<'a>(audits: impl IntoIterator<Item = &'a Audit>) -> Rc<Choice> {
        let mut ranked: Vec<(Trouble, (u64, Key))> = audits.into_iter().flat_map(troubles).collect();
        ranked.sort_unstable();
        ranked.truncate(MOST_WINDOWS);
        let left = Cell::new(MOST_WINDOWS - ranked.len());
        let troubled = ranked.into_iter().map(|one| one.1).collect();
        Rc::new(Choice { room: Room::new(MOST_POINTS), left, troubled })
    }

    /// Whether one more stream's window is shown.
    fn takes(&self, connection: u64, key: Key) -> bool {
        if self.troubled.contains(&(connection, key)) {
            return true;
        }
        let left = self.left.get();
        self.left.set(left.saturating_sub(1));
        left > 0
    }
}

type Trouble = (i64, Nanos);

/// The windows of streams with findings, those with most trouble being the least.
fn troubles(audit: &Audit) -> impl Iterator<Item = (Trouble, (u64, Key))> + '_ {
    let mut found: HashMap<Key, Trouble> = HashMap::new();
    for key in audit.faults.iter().filter_map(|fault| key_of(fault.side as usize, fault.stream)) {
        found.entry(key).or_default().0 -= 1;
    }
    for stall in &audit.stalls {
        let until = stall.end.map_or(Nanos::MAX, |end| end.time);
        let sum = &mut found.entry((stall.side, stall.stream)).or_default().1;
        *sum = sum.saturating_sub(until.saturating_sub(stall.begin.time).max(0));
    }
    found.into_iter().filter(|one| one.0 .1 > 0).map(|(key, trouble)| (trouble, (audit.number, key)))
}

fn key_of(side: usize, stream: u64) -> Option<Key> {
    u32::try_from(stream).ok().map(|stream| (side, stream))
}

/// The frames with findings about a window, the last first.
fn marks_of(audit: &Audit) -> Vec<(u64, Key)> {
    let faults = audit.faults.iter().filter_map(|one| Some((one.frame, key_of(one.side as usize, one.stream)?)));
    let ends = audit.stalls.iter().flat_map(|one| {
        let frames = [Some(one.begin), one.end].into_iter().flatten().map(|at| u64::from(at.frame));
        frames.map(move |frame| (frame, (one.side, one.stream)))
    });
    let mut marks: Vec<(u64, Key)> = faults.chain(ends).collect();
    marks.sort_unstable_by(|one, other| other.cmp(one));
    marks
}

/// The windows whose last stall has no end.
fn open_of(audit: &Audit) -> HashSet<Key> {
    let mut open = HashSet::new();
    for stall in &audit.stalls {
        let key = (stall.side, stall.stream);
        let _ = if stall.end.is_none() { open.insert(key) } else { open.remove(&key) };
    }
    open
}

impl Charts {
    pub fn new(choice: &Rc<Choice>, audit: &Audit, numbers: Numbers) -> Charts {
        Charts {
            number: audit.number,
            choice: choice.clone(),
            connection: [(); 2].map(|()| Series::from(FIRST_CREDIT)),
            streams: HashMap::with_hasher(numbers),
            initials: Default::default(),
            others: Others::default(),
            marks: marks_of(audit),
            open: open_of(audit),
            opened: None,
            begins_with_first_credit: true,
        }
    }

    /// All that a frame does is done: credits that are others have a point.
    pub fn after(&mut self, left: &Left<'_>) {
        for side in [0, 1] {
            change(&mut self.connection[side], left.at, left.windows[side].credit, &self.choice.room);
            change(&mut self.initials[side], left.at, left.initials[side].value, &self.choice.room);
        }
        let opened = self.opened.take();
        let can_change = matches!(left.kind, kind::DATA | kind::HEADERS | kind::RST_STREAM | kind::WINDOW_UPDATE);
        if can_change && left.stream > 0 {
            self.stream(left.stream, left, opened == Some(left.stream));
        }
        if let Some(promised) = opened.filter(|opened| !can_change || *opened != left.stream) {
            self.stream(promised, left, true);
        }
        while let Some((_, key)) = self.marks.last().copied().filter(|mark| mark.0 <= u64::from(left.at.frame)) {
            self.marks.pop();
            self.mark(key, left.at);
        }
    }

    /// Sees the windows of a stream, of which some are not shown.
    fn stream(&mut self, number: u32, left: &Left<'_>, is_opened: bool) {
        let Charts { number: connection, choice, streams, initials, others, .. } = self;
        let values = left.table.look(number, |stream| {
            [0, 1].map(|side| {
                let window = &stream.sides[side].window;
                window.value(&left.initials[side]).map(|credit| (credit, window.is_live))
            })
        });
        let values: [Option<(i64, bool)>; 2] = values.unwrap_or_default();
        if is_opened {
            let shown = [0, 1].map(|side| values[side].filter(|_| choice.takes(*connection, (side, number))));
            let hidden = values.iter().zip(&shown).filter(|one| one.0.is_some() && one.1.is_none());
            others.count += hidden.count() as u64;
            if shown.iter().any(Option::is_some) {
                streams.insert(number, shown.map(|one| one.map(|_| Chart::default())));
            }
        }
        let mut charts = streams.get_mut(&number);
        for (side, value) in values.into_iter().enumerate() {
            match (value, charts.as_mut().and_then(|charts| charts[side].as_mut())) {
                (Some(value), Some(chart)) => chart.see(value, &initials[side], left.at, &choice.room),
                (Some((credit, _)), None) => others.add(credit, credit),
                (None, _) => {}
            }
        }
    }

    /// A finding about a window stands at this frame.
    fn mark(&mut self, key: Key, at: At) {
        let (side, stream) = key;
        let frame = u64::from(at.frame);
        if stream == 0 {
            self.connection[side].mark(frame, at.time);
        } else if let Some(Some(chart)) = self.streams.get_mut(&stream).map(|charts| charts[side].as_mut()) {
            chart.follow(&self.initials[side], &self.choice.room);
            chart.series.mark(frame, at.time);
        }
    }

    /// All that is shown, where the connection lasts from a moment to another, with so many frames.
    pub fn end(self, (begin, until): (Nanos, Nanos), frames: u64) -> ChartsSaid {
        let Charts { choice, connection, streams, initials, others, open, begins_with_first_credit, .. } = self;
        let room = &choice.room;
        let mut streams: Vec<_> = streams.into_iter().collect();
        streams.sort_unstable_by_key(|one| one.0); // points are left out in the order in which room is asked for
        let streams = streams.into_iter().flat_map(|(number, charts)| {
            let charts = charts.into_iter().enumerate();
            charts.filter_map(move |(side, chart)| Some(((side, number), chart?)))
        });
        let streams = streams.map(|(key, mut chart)| {
            chart.follow(&initials[key.0], room);
            (key, chart.series)
        });
        let connection = connection.into_iter().enumerate().map(|(side, series)| ((side, 0), series));
        let mut found: Vec<(u64, Key, Series)> = Vec::new();
        for (key, mut series) in connection.chain(streams).filter(|one| one.1.last.is_some()) {
            let first = series.first;
            if key.1 == 0 && begins_with_first_credit {
                series.begin(Point { frame: 0, time: begin, credit: FIRST_CREDIT });
            }
            if key.1 == 0 || open.contains(&key) {
                series.stand(frames, until);
            }
            found.push((first, key, series));
        }
        found.sort_unstable_by_key(|one| (one.0, one.1 .1, one.1 .0));
        let windows = found.into_iter().map(|(_, key, series)| charted(side_of(key.0), u64::from(key.1), series, room));
        ChartsSaid { windows: windows.collect(), others }
    }
}

impl Chart {
    /// Takes the credit that a frame left, and whether the window is live.
    fn see(&mut self, (credit, is_live): (i64, bool), initials: &Series, at: At, room: &Room) {
        self.follow(initials, room);
        if self.series.last.map(|last| last.credit) != Some(credit) {
            self.series.push(point_at(at, credit), room);
        }
        let initial = initials.last.map_or(FIRST_CREDIT, |last| last.credit);
        self.beside = is_live.then(|| credit - initial);
    }

    /// The initial window moved it meanwhile.
    fn follow(&mut self, initials: &Series, room: &Room) {
        if let (Some(beside), Some(last)) = (self.beside, self.series.last) {
            if initials.count > self.changes {
                let count = self.series.count + initials.count - self.changes;
                for point in initials.behind(last.frame) {
                    self.series.push(Point { credit: beside.saturating_add(point.credit), ..point }, room);
                }
                self.series.count = count; // also of those that are thinned
            }
        }
        self.changes = initials.count;
    }
}

pub fn charted(side: Side, stream: u64, series: Series, room: &Room) -> Charted {
    let (count, least, greatest) = (series.count, series.least, series.greatest);
    let last = series.last.map_or(0, |last| last.credit);
    Charted { side, stream, points: series.into_points(room), count, least, greatest, last }
}

fn change(series: &mut Series, at: At, credit: i64, room: &Room) {
    if series.last.map_or(FIRST_CREDIT, |last| last.credit) != credit {
        series.push(point_at(at, credit), room);
    }
}

fn point_at(at: At, credit: i64) -> Point {
    Point { frame: u64::from(at.frame), time: at.time, credit }
}

#[cfg(test)]
mod tests;
