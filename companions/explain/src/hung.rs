//! Whether a request hung: a window that held it back had no grant up to its end (docs/WHY.md, 3).

use crate::answer::{Cause, CauseKind, CauseWhy, How, Nanos, StallWhy};
use crate::causes::Held;

impl Held<'_> {
    /// What held back a request that hung last, and for how long from the begin of that stall on.
    pub fn hung(&self, cause: &Cause) -> Option<(Cause, Nanos)> {
        let stream = match cause.kind {
            CauseKind::StreamWindow => self.request.stream,
            CauseKind::ConnectionWindow => 0,
            _ => return None,
        };
        let (side, about) = (cause.side as usize, &self.seen.about);
        let direction = &self.request.sides[side];
        let end = direction.end.filter(|end| about.lost >= end.time)?;
        if matches!(self.request.ended.how, How::EndStream | How::RstStream) || self.goes_on(side, about.unseen) {
            return None;
        }
        let life = (self.request.opened.time, end.time);
        let (_, _, last) = self.seen.windows.get(side, stream)?.most(life)?;
        let until = end.time.min(about.unseen);
        if last.end.map_or(false, |granted| granted.time <= until) {
            return None;
        }
        let why = match last.why {
            StallWhy::CancelledStreams => StallWhy::CancelledStreams,
            _ => StallWhy::GrantedNothing,
        };
        let setting = self.seen.setting(side, last.begin.frame);
        let nanos = until - last.begin.time.max(life.0);
        let (why, first, last) = (CauseWhy::Stalls(why), Some(last.begin), Some(end));
        Some((Cause { why, first, last, needed: None, setting, ..*cause }, nanos))
    }

    /// Whether a side sent more on the stream behind a moment, as where the audit stopped.
    fn goes_on(&self, side: usize, from: Nanos) -> bool {
        self.stream.sides[side].last.map_or(false, |last| last.time > from)
    }
}
