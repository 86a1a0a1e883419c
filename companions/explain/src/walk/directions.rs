//! Where the directions of streams begin and end.

use super::Frame;
use crate::answer::Nanos;
use crate::cutter::{flag, kind};
use crate::life::Holding;
use crate::seen::About;
use crate::stream::{Met, Stream, Total};
use crate::windows::{ConnectionWindow, Initial};

/// A frame of a stream came, that may begin or end its direction.
#[inline(always)] // it is called for each frame
pub(super) fn met(
    stream: &mut Stream,
    frame: &Frame<'_>,
    about: &About,
    (initials, windows): (&[Initial; 2], &[ConnectionWindow; 2]),
    totals: &mut [Total; 2],
) {
    let Frame { side, cut, at, .. } = *frame;
    let credit = |stream: &Stream, side: usize| {
        stream.sides[side].window.value(&initials[side]).map(|credit| credit.min(windows[side].credit))
    };
    let met = Met { times: cut.times, at, credit: credit(stream, side) };
    let mut holding = Holding { asked: stream.sides[side].asked.time, ..about.holding(side, stream.number) };
    let ends = cut.head.kind != kind::CONTINUATION && cut.head.has(flag::END_STREAM);
    if stream.sides[side].first.is_none() {
        holding.turn = begins(stream, frame, about, met.credit, &mut totals[side]);
    }
    stream.sides[side].met(&holding, &met);
    let other = 1 - side;
    if stream.sides[other].first.is_none() {
        stream.sides[other].asked_credit = credit(stream, other);
        stream.sides[other].asked = at;
        stream.sides[other].begin_beside(&totals[other]);
    }
    if ends {
        let one = &mut stream.sides[side];
        totals[side].ended += u32::from(one.end.is_none() && one.content > 0);
        one.window.end(&initials[side]);
        one.finish_at(at);
    }
}

/// The first frame of a direction comes. Answers since when that only waited for its turn.
#[inline(never)]
fn begins(stream: &mut Stream, frame: &Frame<'_>, about: &About, credit: Option<i64>, total: &mut Total) -> Nanos {
    let Frame { side, cut, at, .. } = *frame;
    let holding = Holding { asked: stream.sides[side].asked.time, ..about.holding(side, stream.number) };
    let goes_on = cut.head.kind != kind::HEADERS || cut.head.has(flag::END_STREAM);
    if about.was_open(stream.number) && goes_on {
        // It had begun before the capture.
        let met = Met { times: &[stream.opened.time], at: stream.opened, credit };
        stream.sides[side].met(&holding, &met);
        return holding.turn;
    }
    let is_turn = about.is_far() && total.is_turn(stream, side, cut.times);
    total.newest = total.newest.max(stream.order);
    if is_turn {
        // What begins in the packet in which this frame ends stood behind it.
        total.turn = Some(at.time);
        return about.courses[side].sends_since;
    }
    stream.sides[side].begin_beside(total);
    holding.turn
}
