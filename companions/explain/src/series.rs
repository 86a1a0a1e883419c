//! The credit of a window over time, thinned as it comes, so that no capture makes it long.

use std::cell::Cell;

use crate::answer::Nanos;

/// Fewer points than these are no chart.
const FEWEST: usize = 16;
/// A window has so many points at most, where there is room: more than a screen shows.
const MOST: usize = 4096;
/// Four of so many points are kept, where a window's are halved.
const HALVED: usize = 8;

/// The credit after a frame.
#[derive(Clone, Copy, Debug, PartialEq, Eq)]
pub struct Point {
    pub frame: u64,
    pub time: Nanos,
    pub credit: i64,
}

/// How many points all windows have together, and how many one may have: the more there are in all, the fewer.
#[derive(Debug)]
pub struct Room {
    most: usize,
    taken: Cell<usize>,
    limit: Cell<usize>,
}

impl Room {
    pub fn new(most: usize) -> Room {
        Room { most, taken: Cell::new(0), limit: Cell::new(MOST) }
    }

    pub fn limit(&self) -> usize {
        self.limit.get()
    }

    /// Takes room for one more point. A quarter of the room more halves what a window may have.
    fn take(&self) {
        self.taken.set(self.taken.get() + 1);
        if self.taken.get() > self.most && self.limit.get() > FEWEST {
            self.limit.set(self.limit.get() / 2);
            self.taken.set(self.most - self.most / 4);
        }
    }
}

/// The points of a window, of each stretch of them the first, the least, the greatest and the last; and with them where
/// a finding stands.
#[derive(Clone, Debug, Default)]
pub struct Series {
    points: Vec<Point>,
    /// So many points make a stretch, less one; and those of the stretch that is not full yet.
    more: u64,
    stretch: Option<Stretch>,
    marks: Vec<Point>,
    /// Marks whose credit is not known yet.
    awaited: Vec<(u64, Nanos)>,
    /// How many points came.
    pub count: u64,
    pub least: i64,
    pub greatest: i64,
    /// The frame of the first; and the last.
    pub first: u64,
    pub last: Option<Point>,
    /// The credit before the first, where that is known.
    before: Option<i64>,
    /// How it stands where the connection begins and ends.
    ends: [Option<Point>; 2],
}

#[derive(Clone, Copy, Debug)]
struct Stretch {
    first: Point,
    least: Point,
    greatest: Point,
    last: Point,
    number: u64,
}

impl Stretch {
    fn of(point: Point) -> Stretch {
        Stretch { first: point, least: point, greatest: point, last: point, number: 1 }
    }

    fn add(&mut self, point: Point) {
        if point.credit < self.least.credit {
            self.least = point;
        }
        if point.credit > self.greatest.credit {
            self.greatest = point;
        }
        self.last = point;
        self.number += 1;
    }

    /// Its points in order, each once.
    fn points(&self) -> impl Iterator<Item = Point> {
        let (one, other) = match self.least.frame <= self.greatest.frame {
            true => (self.least, self.greatest),
            false => (self.greatest, self.least),
        };
        let mut before = None;
        [self.first, one, other, self.last].into_iter().filter(move |point| before.replace(*point) != Some(*point))
    }
}

impl Series {
    /// The series of a window that begins with a credit that no frame tells.
    pub fn from(before: i64) -> Series {
        Series { before: Some(before), ..Series::default() }
    }

    /// Begins with a point before all others.
    pub fn begin(&mut self, point: Point) {
        self.ends[0] = Some(point);
    }

    /// The last credit stands up to this moment, at which there were so many frames.
    pub fn stand(&mut self, frames: u64, until: Nanos) {
        let last = self.last.filter(|last| last.time < until || last.frame < frames);
        self.ends[1] = last.map(|last| Point { frame: frames.max(last.frame), time: until, ..last });
    }

    /// Adds a point: the credit is another one.
    pub fn push(&mut self, point: Point, room: &Room) {
        self.count(point);
        self.await_no_longer(point);
        self.last = Some(point);
        match &mut self.stretch {
            Some(stretch) => stretch.add(point),
            None => self.stretch = Some(Stretch::of(point)),
        }
        if self.stretch.map_or(false, |stretch| stretch.number > self.more) {
            self.keep(room);
        }
    }

    fn count(&mut self, point: Point) {
        if self.count == 0 {
            self.first = point.frame;
            self.least = point.credit;
            self.greatest = point.credit;
        }
        self.least = self.least.min(point.credit);
        self.greatest = self.greatest.max(point.credit);
        self.count += 1;
    }

    fn keep(&mut self, room: &Room) {
        for point in self.stretch.take().iter().flat_map(Stretch::points) {
            self.points.push(point);
            room.take();
        }
        while self.points.len() >= room.limit() {
            self.halve();
        }
    }

    fn halve(&mut self) {
        self.points = self.points.chunks(HALVED).filter_map(stretch_of).flat_map(|one| one.points()).collect();
        self.more = 2 * self.more + 1;
    }

    /// A finding stands at this frame: its point is kept.
    pub fn mark(&mut self, frame: u64, time: Nanos) {
        match self.last {
            Some(last) if last.frame == frame => self.marks.push(last),
            _ => self.awaited.push((frame, time)),
        }
    }

    /// Marks before this point have the credit before it; those at its frame are this point.
    fn await_no_longer(&mut self, point: Point) {
        let before = self.last.map(|last| last.credit).or(self.before).unwrap_or(point.credit);
        for (frame, time) in self.awaited.drain(..) {
            self.marks.push(if frame == point.frame { point } else { Point { frame, time, credit: before } });
        }
    }

    /// All its points, in order: as many as there is room for, and those of findings; none where no credit is known.
    pub fn into_points(mut self, room: &Room) -> Vec<Point> {
        let last = match self.last {
            Some(last) => last,
            None => return Vec::new(),
        };
        self.await_no_longer(Point { frame: u64::MAX, ..last });
        self.points.extend(self.stretch.take().iter().flat_map(Stretch::points));
        while self.points.len() > room.limit() {
            self.halve();
        }
        self.points.extend(self.marks);
        self.points.extend(self.ends.into_iter().flatten());
        self.points.sort_by_key(|point| point.frame);
        self.points.dedup_by_key(|point| point.frame);
        self.points
    }

    /// The points behind a frame, thinned as they are.
    pub fn behind(&self, frame: u64) -> impl Iterator<Item = Point> + '_ {
        let begin = self.points.partition_point(|point| point.frame <= frame);
        let rest = self.stretch.into_iter().flat_map(|stretch| stretch.points());
        self.points[begin..].iter().copied().chain(rest).filter(move |point| point.frame > frame)
    }
}

fn stretch_of(points: &[Point]) -> Option<Stretch> {
    let mut stretch = Stretch::of(*points.first()?);
    points[1..].iter().for_each(|point| stretch.add(*point));
    Some(stretch)
}

#[cfg(test)]
mod tests {
    use super::*;

    fn point(frame: u64, credit: i64) -> Point {
        Point { frame, time: frame as Nanos * 10, credit }
    }

    #[test]
    fn few_points_are_all_there() {
        let (room, mut series) = (Room::new(100), Series::default());
        let all: Vec<Point> = (1..16).map(|frame| point(frame, -(frame as i64))).collect();
        all.iter().for_each(|point| series.push(*point, &room));
        assert_eq!((series.count, series.least, series.greatest), (15, -15, -1));
        assert_eq!(series.into_points(&room), all);
    }

    #[test]
    fn many_keep_their_extremes_and_marks() {
        let (room, mut series) = (Room::new(100), Series::default());
        for frame in 1..100_000 {
            let credit = match frame {
                33_333 => -7,
                77_777 => 1_000_000,
                _ => 1000 + (frame * 7919 % 1000) as i64,
            };
            series.push(point(frame, credit), &room);
            if frame % 10_000 == 5 {
                series.mark(frame, frame as Nanos * 10);
            }
        }
        assert_eq!((room.limit(), series.count, series.least, series.greatest), (FEWEST, 99_999, -7, 1_000_000));
        let points = series.into_points(&room);
        assert!(points.len() <= FEWEST + 10, "{}", points.len());
        assert!(points.windows(2).all(|two| two[0].frame < two[1].frame));
        let has = |frame| points.iter().any(|point| point.frame == frame);
        assert!([1, 33_333, 77_777, 99_999].into_iter().all(has));
        assert!((0..10).all(|at| has(at * 10_000 + 5)));
        let most = points.windows(2).map(|two| two[1].frame - two[0].frame).max();
        assert!(most < Some(40_000), "{most:?}");
    }

    #[test]
    fn a_finding_where_the_credit_is_the_same() {
        let (room, mut series) = (Room::new(100), Series::default());
        series.mark(1, 10);
        series.push(point(2, 50), &room);
        series.mark(3, 30);
        series.mark(4, 40);
        series.push(point(4, 20), &room);
        series.mark(4, 40);
        series.mark(9, 90);
        let wanted = [point(1, 50), point(2, 50), point(3, 50), point(4, 20), point(9, 20)];
        assert_eq!(series.into_points(&room), wanted);
        let mut unknown = Series::default();
        unknown.mark(1, 10);
        assert_eq!(unknown.into_points(&room), []);
    }

    #[test]
    fn what_lies_behind() {
        let (room, mut series) = (Room::new(100), Series::default());
        (1..6).for_each(|frame| series.push(point(frame, 5), &room));
        let frames = |frame| series.behind(frame).map(|point| point.frame).collect::<Vec<u64>>();
        assert_eq!((frames(3), frames(5)), (vec![4, 5], vec![]));
    }
}
