//! How much of a direction had come, or was sent, by any time (docs/WHY.md, 14): a unit for its head, one for each byte
//! of content, and one for its end.

use crate::answer::Nanos;

/// So many steps of a course are kept, and so many of all; more are thinned.
pub const MOST_STEPS: usize = 4096;
pub const LEAST_STEPS: usize = 64;
/// Two interfaces of a host may tell times that are so far out of order.
pub const SLACK: Nanos = 2_000;

/// A time, and the units that had come by then.
type Step = (Nanos, u64);

/// Some steps, of which few need no memory of their own.
#[derive(Clone, Debug)]
enum Steps {
    Few(usize, [Step; FEW]),
    Many(Vec<Step>),
}

/// So many most directions have: a head, and content that ends.
const FEW: usize = 2;

impl Default for Steps {
    fn default() -> Steps {
        Steps::Few(0, [(0, 0); FEW])
    }
}

impl Steps {
    fn all(&self) -> &[Step] {
        match self {
            Steps::Few(count, steps) => &steps[..*count],
            Steps::Many(steps) => steps,
        }
    }

    fn last_mut(&mut self) -> Option<&mut Step> {
        match self {
            Steps::Few(count, steps) => steps[..*count].last_mut(),
            Steps::Many(steps) => steps.last_mut(),
        }
    }

    fn push(&mut self, step: Step) {
        match self {
            Steps::Few(count, steps) if *count < FEW => {
                steps[*count] = step;
                *count += 1;
            }
            Steps::Few(_, steps) => {
                let mut all = Vec::with_capacity(2 * FEW);
                all.extend_from_slice(steps);
                all.push(step);
                *self = Steps::Many(all);
            }
            Steps::Many(steps) => steps.push(step),
        }
    }
}

#[derive(Clone, Debug, Default)]
pub struct ByteCourse {
    steps: Steps,
    /// When the packets of a frame came that has more than one, and the units that had come before it.
    frames: Vec<(Nanos, Nanos, u64)>,
    has_content: bool,
    is_thinned: bool,
}

impl ByteCourse {
    pub fn len(&self) -> usize {
        self.steps().len()
    }

    pub fn total(&self) -> u64 {
        self.steps().last().map_or(0, |step| step.1)
    }

    pub fn steps(&self) -> &[Step] {
        self.steps.all()
    }

    fn add(&mut self, time: Nanos, units: u64) {
        match self.steps.last_mut() {
            Some(step) if time <= step.0 => step.1 += units,
            last => {
                let total = last.map_or(0, |step| step.1);
                self.steps.push((time, total + units));
            }
        }
    }

    /// A head came. One behind an informational head, before any content, takes its place.
    pub fn head(&mut self, time: Nanos, ends: bool) {
        if self.total() == 0 {
            self.add(time, 1);
        } else if self.total() == 1 && !self.has_content && !ends {
            self.steps = Steps::default();
            self.add(time, 1);
        }
        if ends {
            self.add(time, 1);
        }
    }

    /// DATA came: by each of these times so many bytes of its content in all.
    pub fn content(&mut self, came: impl Iterator<Item = (Nanos, u64)>, ends: bool) {
        let (mut before, mut first, mut last, total) = (0, None, None, self.total());
        for (time, bytes) in came {
            if bytes > before {
                self.has_content = true;
                self.add(time, bytes - before);
                first = first.or(Some(time));
            }
            before = bytes.max(before);
            last = Some(time);
        }
        if let Some(time) = last.filter(|_| ends) {
            self.add(time, 1);
        }
        self.frames
            .extend(first.zip(last).filter(|(first, last)| first < last).map(|(first, last)| (first, last, total)));
    }

    /// The units that had come by a time; of a thinned course as many at least.
    pub fn at(&self, time: Nanos) -> u64 {
        let steps = self.steps();
        steps[..steps.partition_point(|step| step.0 <= time)].last().map_or(0, |step| step.1)
    }

    /// .. and as many at most.
    fn at_most(&self, time: Nanos) -> u64 {
        let steps = self.steps();
        let behind = steps.partition_point(|step| step.0 <= time);
        match self.is_thinned {
            true => steps.get(behind).map_or_else(|| self.total(), |step| step.1),
            false => behind.checked_sub(1).map_or(0, |at| steps[at].1),
        }
    }

    /// Whether what was sent was never more than what had come.
    pub fn never_behind(&self, sent: &ByteCourse) -> bool {
        let is_ahead = |step: &(Nanos, u64)| step.1 > self.at_most(step.0.saturating_add(SLACK));
        !sent.steps().iter().any(is_ahead)
    }

    /// Its head and its end alone, as where the content was changed.
    pub fn outline(&self) -> ByteCourse {
        let mut steps = Steps::default();
        if let Some(first) = self.steps().first() {
            steps.push((first.0, 1));
        }
        if let [_, .., last] = self.steps() {
            steps.push((last.0, 2));
        }
        let ByteCourse { has_content, is_thinned, .. } = *self;
        ByteCourse { steps, frames: Vec::new(), has_content, is_thinned }
    }

    /// Leaves some half of so many steps, if there are more: those at both ends of longer pauses.
    pub fn thin(&mut self, most: usize) {
        let all = self.steps();
        let (first, last) = match (all.first(), all.last()) {
            (Some(first), Some(last)) if all.len() > most => (first.0, *last),
            _ => return,
        };
        let least = last.0.saturating_sub(first) / (most as Nanos / 4).max(1);
        let (mut kept, mut before): (Vec<_>, _) = (Vec::with_capacity(most / 2 + 2), Nanos::MIN);
        for (at, step) in all.iter().enumerate() {
            let next = all.get(at + 1).map_or(Nanos::MAX, |next| next.0);
            if step.0.saturating_sub(before) > least || next.saturating_sub(step.0) > least {
                kept.push(*step);
                before = step.0;
            }
        }
        self.steps = Steps::Many(kept);
        self.frames.retain(|frame| frame.1.saturating_sub(frame.0) > least);
        self.is_thinned = true;
    }
}

/// A place in a course, which moves on with the times that are asked for.
pub struct Cursor<'a> {
    steps: &'a [Step],
    frames: &'a [(Nanos, Nanos, u64)],
    at: usize,
    frame: usize,
}

impl<'a> Cursor<'a> {
    pub fn new(course: &'a ByteCourse) -> Cursor<'a> {
        Cursor { steps: course.steps(), frames: &course.frames, at: 0, frame: 0 }
    }

    /// The units of whole frames: many a proxy reads no part of one.
    pub fn whole_at(&mut self, time: Nanos) -> u64 {
        while self.frames.get(self.frame).map_or(false, |frame| frame.1 <= time) {
            self.frame += 1;
        }
        let part = self.frames.get(self.frame).filter(|frame| frame.0 <= time).map(|frame| frame.2);
        part.unwrap_or_else(|| self.at(time))
    }

    pub fn at(&mut self, time: Nanos) -> u64 {
        while self.steps.get(self.at).map_or(false, |step| step.0 <= time) {
            self.at += 1;
        }
        self.at.checked_sub(1).map_or(0, |at| self.steps[at].1)
    }
}

#[cfg(test)]
pub mod tests {
    use super::*;

    /// A head, contents, and an end.
    pub fn course(head: Nanos, contents: &[(Nanos, u64)], end: Option<Nanos>) -> ByteCourse {
        let mut one = ByteCourse::default();
        one.head(head, false);
        contents.iter().for_each(|step| one.content([*step].into_iter(), false));
        end.into_iter().for_each(|end| one.content([(end, 0)].into_iter(), true));
        one
    }

    #[test]
    fn units_of_a_direction() {
        let mut one = ByteCourse::default();
        one.head(10, false);
        one.head(20, false);
        one.content([(30, 4), (40, 4), (50, 9)].into_iter(), false);
        one.head(60, true);
        assert_eq!(one.steps(), [(20, 1), (30, 5), (50, 10), (60, 11)]);
        assert_eq!([one.at(19), one.at(20), one.at(59), one.at(99)], [0, 1, 10, 11]);
        let mut only = ByteCourse::default();
        only.head(10, true);
        assert_eq!(only.steps(), [(10, 2)]);
        let mut cursor = Cursor::new(&one);
        assert_eq!([5, 20, 45, 60].map(|time| cursor.at(time)), [0, 1, 5, 11]);
    }

    #[test]
    fn a_frame_is_there_once_it_is_whole() {
        let mut one = ByteCourse::default();
        one.head(10, false);
        one.content([(20, 4), (30, 9)].into_iter(), false);
        one.content([(30, 5)].into_iter(), true);
        let mut cursor = Cursor::new(&one);
        assert_eq!(
            [10, 20, 29, 30].map(|time| (cursor.whole_at(time), one.at(time))),
            [(1, 1), (1, 5), (1, 5), (16, 16)]
        );
        assert!(one.outline().frames.is_empty());
    }

    #[test]
    fn nothing_is_handed_on_before_it_comes() {
        let came = course(10_000, &[(20_000, 100), (30_000, 100)], Some(30_000));
        assert!(came.never_behind(&course(10_000, &[(20_000, 100), (40_000, 100)], Some(50_000))));
        assert!(came.never_behind(&course(9_000, &[(19_000, 100)], None)), "interfaces of one host");
        assert!(!came.never_behind(&course(7_000, &[], None)));
        assert!(!came.never_behind(&course(10_000, &[(20_000, 101)], None)));
    }

    #[test]
    fn thinned_courses_keep_pauses() {
        let mut one = ByteCourse::default();
        let times = (0..2000).map(|at| if at < 1000 { at } else { at + 100_000 });
        times.clone().for_each(|time| one.content([(time, 1)].into_iter(), false));
        let whole = one.clone();
        one.thin(64);
        assert!(one.len() <= 64 && one.total() == 2000, "{}", one.len());
        assert_eq!([one.at(999), one.at(100_999), one.at(101_000)], [1000, 1000, 1001]);
        let mut times = times;
        assert!(times.all(|time| one.at(time) <= whole.at(time) && one.at_most(time) >= whole.at(time)));
        assert!(one.never_behind(&whole) && whole.never_behind(&one));
    }
}
