//! What is known of a stream as its frames come: its request, and what each side sends on it.

mod beside;

use crate::answer::{At, Nanos};
use crate::course::SideCourse;
use crate::life::{Holding, Life};
use crate::unshown::Unshown;
use crate::windows::CountedWindow;

pub use beside::{Beside, Total};

/// A stream that was opened; a pushed one by a promise on another.
#[derive(Clone, Debug, PartialEq, Eq)]
pub struct Stream {
    pub number: u32,
    /// How many streams of its connection were opened before it.
    pub order: u32,
    pub promised_on: u32,
    pub opened: At,
    pub sides: [Direction; 2],
    pub request: Option<RequestFields>,
    pub answer: ResponseFields,
    pub reset: Option<Reset>,
}

/// What the request's field block says, by numbers of texts.
#[derive(Clone, Copy, Debug, Default, PartialEq, Eq)]
pub struct RequestFields {
    /// Whether it has none of the fields that are wanted.
    pub is_empty: bool,
    pub method: u32,
    pub path: u32,
    pub authority: u32,
    /// Hashes of the values that tell it from others wherever it goes, by [`hpack::Name::IDS`]; 0 is none.
    pub ids: [u64; 2],
}

/// What the server's field blocks say.
#[derive(Clone, Copy, Debug, Default, PartialEq, Eq)]
pub struct ResponseFields {
    pub fields: Option<Answered>,
    /// By the trailers.
    pub grpc_status: Option<u32>,
}

#[derive(Clone, Copy, Debug, PartialEq, Eq)]
pub struct Answered {
    /// An informational status goes before the response.
    pub is_informational: bool,
    pub status: Option<u32>,
    pub grpc_status: Option<u32>,
}

#[derive(Clone, Copy, Debug, PartialEq, Eq)]
pub struct Reset {
    pub side: usize,
    pub at: At,
    pub code: u32,
}

/// What one side sends on a stream.
#[derive(Clone, Debug, PartialEq, Eq)]
pub struct Direction {
    pub life: Life,
    pub content: u64,
    /// What of that is padding.
    pub padding: u64,
    /// The first and the last of its frames.
    pub first: Option<At>,
    pub last: Option<At>,
    /// The lesser of the stream's and the connection's credit after the last one.
    pub last_credit: Option<i64>,
    /// Its END_STREAM, or a reset before that.
    pub end: Option<At>,
    pub is_reset: bool,
    pub idle: Option<Box<Idle>>,
    /// The other side's last frame before the first one of this side, and the credit after that.
    pub asked: At,
    pub asked_credit: Option<i64>,
    /// Whether this side sent nothing at all between the two.
    pub was_silent: bool,
    pub beside: Beside,
    pub window: CountedWindow,
    /// All that the other side granted.
    pub granted: u64,
    /// Where stalls of it may not show.
    pub unshown: Option<Box<Unshown>>,
    /// How long such stalls took within its life.
    pub unshown_nanos: Nanos,
    pub kept: Option<Box<Kept>>,
}

/// The frames around the longest stretch in which nothing was sent, and the credit as it began.
#[derive(Clone, Copy, Debug, Default, PartialEq, Eq)]
pub struct Idle {
    pub before: Option<At>,
    pub credit: Option<i64>,
    pub after: Option<At>,
}

/// The frames of a direction, where times go back, so that its life is divided at its end.
#[derive(Clone, Debug, Default, PartialEq, Eq)]
pub struct Kept {
    pub sent: Vec<(Nanos, Nanos, bool)>,
    pub frames: Vec<(At, Option<i64>)>,
}

/// A frame of a direction: when its packets came, where it ends, and the credit after it.
pub struct Met<'a> {
    pub times: &'a [Nanos],
    pub at: At,
    pub credit: Option<i64>,
}

impl Stream {
    pub fn new(number: u32, order: u32, opened: At, has_spans: bool) -> Stream {
        let direction = || Direction::new(opened, has_spans);
        Stream {
            number,
            order,
            promised_on: 0,
            opened,
            sides: [direction(), direction()],
            request: None,
            answer: ResponseFields::default(),
            reset: None,
        }
    }

    /// One in whose place others are read.
    pub fn empty() -> Stream {
        Stream::new(0, 0, At { packet: 0, time: 0, frame: 0 }, false)
    }

    /// Lets go of what it holds beside itself.
    pub fn let_go(&mut self) {
        for side in &mut self.sides {
            side.life.spans = None;
            (side.idle, side.unshown, side.kept) = (None, None, None);
        }
    }

    /// Whether both directions have ended.
    pub fn is_over(&self) -> bool {
        self.sides.iter().all(|side| side.end.is_some())
    }

    /// Notes, if it is over, of which sides it had more content than a window held, so that they may have waited.
    #[inline]
    pub fn note_use(&self, uses: &mut [bool; 2]) {
        if self.is_over() {
            self.note_content(uses);
        }
    }

    /// Notes of a stream that ends here which sides had more content than their windows held at once.
    pub fn note_content(&self, uses: &mut [bool; 2]) {
        for (side, uses) in self.sides.iter().zip(uses) {
            let window = side.window.largest.unwrap_or(0);
            *uses |= window > 0 && i128::from(side.content) >= i128::from(window);
        }
    }

    /// Ends both directions, as far as they go on.
    pub fn reset(&mut self, reset: Reset) {
        self.reset = Some(reset);
        for side in self.sides.iter_mut().filter(|side| side.end.is_none()) {
            side.is_reset = true;
            side.finish_at(reset.at);
        }
    }
}

impl ResponseFields {
    /// Takes the next block of the server.
    pub fn take(&mut self, said: Answered) {
        match self.fields {
            Some(before) if !before.is_informational => self.grpc_status = said.grpc_status,
            _ => self.fields = Some(said),
        }
    }
}

impl Kept {
    fn met(&mut self, met: &Met<'_>, pause: Nanos) {
        match together(met.times, pause) {
            Some((first, last)) => self.sent.push((first, last, false)),
            None => self.sent.extend(met.times.iter().enumerate().map(|(at, time)| (*time, *time, at > 0))),
        }
        self.frames.push((met.at, met.credit));
    }
}

impl Direction {
    fn new(opened: At, has_spans: bool) -> Direction {
        Direction {
            life: Life::new(opened.time, has_spans),
            content: 0,
            padding: 0,
            first: None,
            last: None,
            last_credit: None,
            end: None,
            is_reset: false,
            idle: None,
            asked: opened,
            asked_credit: None,
            was_silent: false,
            beside: Beside::default(),
            window: CountedWindow::default(),
            granted: 0,
            unshown: None,
            unshown_nanos: 0,
            kept: None,
        }
    }

    /// It ends here, if it has not ended before.
    #[inline]
    pub fn finish_at(&mut self, at: At) {
        if self.end.is_none() {
            self.end = Some(at);
            self.life.until = at.time.max(self.life.at);
        }
    }

    /// A frame of it came. What holds it back is known with when it was asked for.
    #[inline]
    pub fn met(&mut self, holding: &Holding<'_>, met: &Met<'_>) {
        if self.first.is_none() {
            self.was_silent = holding.course.is_silent(self.asked.time, met.at.time);
        }
        match &mut self.kept {
            Some(kept) => kept.met(met, holding.course.pause()),
            None => self.divide(holding, met),
        }
        self.first.get_or_insert(met.at);
        self.last = Some(met.at);
        self.last_credit = met.credit;
    }

    #[inline]
    fn divide(&mut self, holding: &Holding<'_>, met: &Met<'_>) {
        let idle = self.life.longest_idle;
        match together(met.times, holding.course.pause()) {
            Some((first, last)) => self.life.sent(holding, first, last, false),
            None => self.life.sent_apart(holding, met.times),
        }
        if self.life.longest_idle != idle {
            self.idle = Some(Box::new(Idle { after: Some(met.at), ..self.before_idle() }));
        } else if self.end.is_some() {
            // A stretch that its end ended is followed by a frame.
            if let Some(idle) = &mut self.idle {
                idle.after.get_or_insert(met.at);
            }
        }
    }

    fn before_idle(&self) -> Idle {
        Idle { before: self.last, credit: self.last_credit, after: None }
    }

    /// Divides the rest of its life; within a frame, where one was begun whose rest never came.
    pub fn finish(&mut self, holding: &Holding<'_>, until: Nanos, is_cut: bool) {
        let holding = &Holding { asked: self.asked.time, ..*holding };
        if self.first.is_none() && self.life.at < until {
            self.was_silent = holding.course.is_silent(self.asked.time, until);
        }
        self.life.until = until.max(self.life.at);
        let idle = self.life.longest_idle;
        self.life.finish(holding, is_cut);
        if self.life.longest_idle != idle {
            self.idle = Some(Box::new(self.before_idle()));
        }
    }

    /// Divides its whole life from what was kept of its frames, where times go back.
    pub fn finish_kept(&mut self, holding: &Holding<'_>, opened: Nanos, until: Nanos, cut: Option<&[Nanos]>) {
        let kept = self.kept.take().unwrap_or_default();
        let holding = &Holding { asked: self.asked.time, ..*holding };
        self.life = Life { until: until.max(opened), ..Life::new(opened, self.life.spans.is_some()) };
        for &(first, last, is_within) in &kept.sent {
            self.life.sent(holding, first, last, is_within);
        }
        self.cut(holding, cut.unwrap_or_default());
        self.life.finish(holding, cut.is_some());
        let begin = self.life.longest_idle.0;
        if self.life.longest_idle.1 > begin {
            let at = bisect(&kept.frames, |frame| frame.0.time <= begin);
            let before = at.checked_sub(1).and_then(|at| kept.frames.get(at)).copied();
            self.idle = Some(Box::new(Idle {
                before: before.map(|frame| frame.0),
                credit: before.and_then(|frame| frame.1),
                after: kept.frames.get(at).map(|frame| frame.0),
            }));
        }
    }

    /// Packets of a frame whose rest never came.
    pub fn cut(&mut self, holding: &Holding<'_>, times: &[Nanos]) {
        let holding = &Holding { asked: self.asked.time, ..*holding };
        let idle = self.life.longest_idle;
        self.life.sent_apart(holding, times);
        if self.life.longest_idle != idle {
            self.idle = Some(Box::new(self.before_idle()));
        }
    }

    /// The other side granted.
    pub fn granted(&mut self, time: Nanos, amount: u32, is_in_order: bool) {
        self.granted += u64::from(amount);
        if let Some(unshown) = &mut self.unshown {
            unshown.grant(time, amount, is_in_order);
        }
    }

    /// DATA came: pauses before it that began without credit, as far as they began within its life and TCP did not
    /// hold back meanwhile.
    pub fn pauses(&mut self, course: &SideCourse, times: &[Nanos], length: u32, credit: Option<i64>) {
        let until = self.end.map_or(Nanos::MAX, |end| end.time);
        if let (Some(unshown), Some(first), Some(last)) = (&mut self.unshown, times.first(), times.last()) {
            if let Some((since, until)) = unshown.content((*first, *last), length, credit).filter(|one| one.0 < until) {
                let nanos = until - since - course.tcp_within(since, until);
                self.unshown_nanos = self.unshown_nanos.saturating_add(nanos);
            }
        }
    }

    /// What its side has sent in all, before its first frame.
    #[inline]
    pub fn begin_beside(&mut self, total: &Total) {
        if self.first.is_none() {
            let (before, active_before, ended) = (total.content, total.active, total.ended);
            self.beside = Beside { before, active_before, ended, ..Beside::default() };
        }
    }

    /// Ends what is counted beside it.
    pub fn end_beside(&mut self) {
        self.beside = Beside { before: 0, active_before: 0, ended: 0, ..self.beside };
    }

    /// Counts what its side has sent in all, as this direction sends content.
    #[inline]
    pub fn beside(&mut self, total: &mut Total, times: &[Nanos], length: u32, pause: Nanos) {
        self.begin_beside(total);
        total.begun += u32::from(self.content == u64::from(length));
        total.sent(times, length, pause);
        self.beside.content = total.content - self.beside.before;
        self.beside.active = total.active - self.beside.active_before;
        self.beside.streams = total.begun.saturating_sub(self.beside.ended);
    }
}

/// When the packets of a frame came, the first and the last one, unless it took longer than a pause.
#[inline]
fn together(times: &[Nanos], pause: Nanos) -> Option<(Nanos, Nanos)> {
    let (first, last) = (*times.first()?, *times.last()?);
    (last.saturating_sub(first) <= pause).then_some((first, last))
}

/// The first place at which this does not hold; halves are tried as where all before it do.
fn bisect<T>(all: &[T], holds: impl Fn(&T) -> bool) -> usize {
    let (mut low, mut high) = (0, all.len());
    while low < high {
        let middle = (low + high) / 2;
        match holds(&all[middle]) {
            true => low = middle + 1,
            false => high = middle,
        }
    }
    low
}
