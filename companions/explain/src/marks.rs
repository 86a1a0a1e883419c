//! Stretches of time with what they are, in order and without overlap; what lies between them is free: a pause as
//! between packets, or a longer one.

use crate::answer::{Nanos, Share, Shares};

/// Sums up to each border answer for any stretch of time in two searches.
#[derive(Clone, Debug, Default)]
pub struct Marks {
    /// The longest pause within sending.
    pub pause: Nanos,
    marked: Vec<Marked>,
}

/// A stretch in which something holds back, or in which other streams are sent.
#[derive(Clone, Copy, Debug)]
struct Marked {
    begin: Nanos,
    end: Nanos,
    share: Share,
    /// The last one of its run: stretches of TCP with longer pauses between them. Within a frame all of a run is TCP,
    /// which the spans of many directions would else go along, each one by one.
    run: u32,
    /// What of each share lies before it.
    sums: [Nanos; 5],
}

const SUMMED: [Share; 5] = [Share::ConnectionStall, Share::Tcp, Share::Others, Share::Sending, Share::Idle];

impl Marks {
    pub fn new(pause: Nanos) -> Marks {
        Marks { pause, marked: Vec::new() }
    }

    /// Marks stretches that are in order and do not overlap.
    pub fn of(pause: Nanos, stretches: impl Iterator<Item = (Nanos, Nanos, Share)>) -> Marks {
        let mut marks = Marks::new(pause);
        stretches.for_each(|(begin, end, share)| marks.push(begin, end, share));
        marks.mark_runs();
        marks
    }

    /// Adds a stretch behind all others; one with the last, where it goes on.
    pub fn push(&mut self, begin: Nanos, end: Nanos, share: Share) {
        if begin >= end {
            return;
        }
        let mut sums = [0; 5];
        if let Some(&last) = self.marked.last() {
            if last.end == begin && last.share == share {
                self.marked.last_mut().iter_mut().for_each(|last| last.end = end);
                return;
            }
            sums = last.sums_behind(self.free(last.end, begin), begin);
        }
        self.marked.push(Marked { begin, end, share, run: 0, sums });
    }

    fn mark_runs(&mut self) {
        let pause = self.pause;
        let mut after: Option<Marked> = None;
        for (at, one) in self.marked.iter_mut().enumerate().rev() {
            let goes_on =
                |after: &Marked| one.share == Share::Tcp && after.share == Share::Tcp && after.begin - one.end > pause;
            one.run = after.filter(goes_on).map_or(at as u32, |after| after.run);
            after = Some(*one);
        }
    }

    #[inline]
    pub fn len(&self) -> usize {
        self.marked.len()
    }

    #[inline]
    pub fn is_empty(&self) -> bool {
        self.marked.is_empty()
    }

    pub fn end(&self) -> Nanos {
        self.marked.last().map_or(Nanos::MIN, |last| last.end)
    }

    #[inline]
    pub fn last(&self) -> Option<(Nanos, Nanos, Share)> {
        self.marked.last().map(|one| (one.begin, one.end, one.share))
    }

    /// A stretch by its number.
    pub fn stretch(&self, index: usize) -> Option<(Nanos, Nanos, Share)> {
        self.marked.get(index).map(|one| (one.begin, one.end, one.share))
    }

    /// Lets go of those that end up to a moment, and answers up to when nothing is known any longer.
    pub fn forget(&mut self, until: Nanos) -> Option<Nanos> {
        let count = self.marked.partition_point(|one| one.end <= until);
        let known = count.checked_sub(1).and_then(|last| self.marked.get(last)).map(|last| last.end);
        self.marked.drain(..count);
        if self.marked.is_empty() {
            self.marked = Vec::new();
        }
        known
    }

    /// A stretch in which nothing holds back.
    fn free(&self, begin: Nanos, end: Nanos) -> Share {
        if end - begin <= self.pause {
            Share::Sending
        } else {
            Share::Idle
        }
    }

    /// How many stretches begin up to a moment, which mostly is one of the last.
    fn begun(&self, time: Nanos) -> usize {
        let (mut step, mut behind) = (1, self.marked.len());
        while let Some(before) = behind.checked_sub(step) {
            if self.marked[before].begin <= time {
                return before + 1 + self.marked[before + 1..behind].partition_point(|one| one.begin <= time);
            }
            behind = before;
            step *= 2;
        }
        self.marked[..behind].partition_point(|one| one.begin <= time)
    }

    /// Adds what a stretch in which nothing of a stream was sent is made of.
    pub fn measure(&self, begin: Nanos, end: Nanos, shares: &mut Shares) {
        if begin >= end {
            return;
        }
        let mut begin = begin;
        let next = self.begun(begin);
        let over = next.checked_sub(1).and_then(|at| self.marked.get(at)).filter(|one| one.end > begin);
        if let Some(over) = over {
            let until = end.min(over.end);
            shares[over.share as usize] += until - begin;
            begin = until;
        }
        match self.marked[next..self.begun(end - 1).max(next)].split_last() {
            None => shares[self.free(begin, end) as usize] += end - begin,
            Some((last, before)) => self.measure_over(begin, end, before.first().unwrap_or(last), last, shares),
        }
    }

    /// Measures from a free moment on, over stretches, of which the last may go on past the end.
    fn measure_over(&self, begin: Nanos, end: Nanos, first: &Marked, last: &Marked, shares: &mut Shares) {
        shares[self.free(begin, first.begin) as usize] += first.begin - begin;
        for (at, share) in SUMMED.into_iter().enumerate() {
            shares[share as usize] += last.sums[at] - first.sums[at];
        }
        let until = end.min(last.end);
        shares[last.share as usize] += until - last.begin;
        if until < end {
            shares[self.free(until, end) as usize] += end - until;
        }
    }

    /// Divides a stretch in which nothing was sent into spans, one after the other, as long as the taker wants more; a
    /// run within a frame is one span. Answers where it stopped.
    pub fn spans(
        &self,
        begin: Nanos,
        end: Nanos,
        is_within: bool,
        mut take: impl FnMut(Nanos, Nanos, Share) -> bool,
    ) -> Nanos {
        let mut begin = begin;
        let mut at = self.begun(begin).saturating_sub(1);
        let last = if is_within { self.begun(end - 1).saturating_sub(1) } else { 0 };
        while let Some(one) = self.marked.get(at).filter(|one| begin < end && one.begin < end) {
            if one.begin > begin {
                let wants_more = take(begin, one.begin, self.free(begin, one.begin));
                begin = one.begin;
                if !wants_more {
                    return begin;
                }
            }
            if one.end > begin {
                at = if is_within { (one.run as usize).min(last) } else { at };
                let until = self.marked[at].end.min(end);
                let wants_more = take(begin, until, one.share);
                begin = until;
                if !wants_more {
                    return begin;
                }
            }
            at += 1;
        }
        if begin < end {
            take(begin, end, self.free(begin, end));
        }
        end
    }
}

impl Marked {
    /// What lies before the next stretch, up to which it is free.
    fn sums_behind(&self, free: Share, next: Nanos) -> [Nanos; 5] {
        let mut sums = self.sums;
        for (sum, share) in sums.iter_mut().zip(SUMMED) {
            if share == self.share {
                *sum += self.end - self.begin;
            } else if share == free {
                *sum += next - self.end;
            }
        }
        sums
    }
}

#[cfg(test)]
mod tests {
    use super::*;

    fn spans(marks: &Marks, begin: Nanos, end: Nanos, is_within: bool) -> Vec<(Nanos, Nanos, Share)> {
        let mut found = Vec::new();
        marks.spans(begin, end, is_within, |from, to, share| {
            found.push((from, to, share));
            true
        });
        found
    }

    const TCP: Share = Share::Tcp;

    #[test]
    fn measures_are_sums_of_spans() {
        let (stall, others) = (Share::ConnectionStall, Share::Others);
        let all = [(10, 20, stall), (20, 30, TCP), (32, 40, TCP), (41, 43, others), (50, 60, stall), (90, 95, TCP)];
        let mut marks = Marks::of(5, all.into_iter());
        assert_eq!(marks.len(), 6);
        for _ in 0..2 {
            for begin in 31..110 {
                for end in begin + 1..110 {
                    let mut measured = [0; 8];
                    marks.measure(begin, end, &mut measured);
                    let mut summed = [0; 8];
                    let mut at = begin;
                    for (from, to, share) in spans(&marks, begin, end, false) {
                        assert_eq!(from, at);
                        summed[share as usize] += to - from;
                        at = to;
                    }
                    assert_eq!((at, measured), (end, summed), "{begin} to {end}");
                }
            }
            marks.forget(31);
            assert_eq!(marks.len(), 4);
        }
        marks.push(95, 97, TCP);
        assert_eq!((marks.len(), marks.end(), marks.forget(40)), (4, 97, Some(40)), "the last one goes on");
    }

    #[test]
    fn within_a_frame_a_run_of_tcp_is_one_span() {
        let all = [(10, 12, TCP), (20, 22, TCP), (30, 32, TCP), (33, 34, TCP)];
        let marks = Marks::of(5, all.into_iter());
        assert_eq!(spans(&marks, 10, 25, true), [(10, 22, TCP), (22, 25, Share::Sending)]);
        let all = [(0, 10, Share::Idle), (10, 32, TCP), (32, 33, Share::Sending), (33, 34, TCP), (34, 40, Share::Idle)];
        assert_eq!(spans(&marks, 0, 40, true), all);
    }
}
