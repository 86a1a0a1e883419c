//! DATA frames: content of streams, and what it took from windows.

use super::directions::met;
use super::{Frame, Walk};
use crate::beginning::Content;
use crate::cutter::flag;

impl Walk {
    pub(super) fn data(&mut self, frame: &Frame<'_>) {
        let Frame { side, cut, is_judged, .. } = *frame;
        let body = match cut.body(0) {
            Some((begin, end)) => end - begin,
            None => return,
        };
        let length = cut.head.length;
        self.windows[side].content(if is_judged { length } else { 0 });
        if self.unshown[side].is_some() {
            self.pauses(frame);
        }
        let Walk { table, initials, windows, about, leaks, uses_window, totals, .. } = self;
        let touched = table.touch(cut.head.stream, |stream| {
            let one = &mut stream.sides[side];
            one.content += u64::from(length);
            if one.unshown.is_some() {
                let before = one.window.value(&initials[side]);
                one.pauses(&about.courses[side], cut.times, length, before);
            }
            one.padding += u64::from(length) - body as u64;
            if length > 0 && one.end.is_none() {
                one.beside(&mut totals[side], cut.times, length, about.rest);
            }
            one.window.content(&initials[side], if is_judged { length } else { 0 });
            if let Some(leaks) = &mut leaks[side] {
                leaks.content(Some(stream), length);
            }
            met(stream, frame, about, (initials, windows), totals);
            totals[side].passes(&stream.sides[side], frame.at);
            if stream.sides[side].end.is_some() {
                stream.note_use(uses_window);
            }
        });
        if let (None, Some(leaks)) = (touched, &mut leaks[side]) {
            leaks.content(None, length);
        }
        if self.beginning.is_some() {
            self.content_behind_beginning(frame);
        }
    }

    /// Pauses before content that began without the connection's credit, where stalls may not show.
    #[inline(never)]
    pub(super) fn pauses(&mut self, frame: &Frame<'_>) {
        let Frame { side, cut, .. } = *frame;
        if let (Some((unshown, found)), Some(first), Some(last)) =
            (&mut self.unshown[side], cut.times.first(), cut.times.last())
        {
            let course = &self.about.courses[side];
            let pause = unshown.content((*first, *last), cut.head.length, None);
            found.extend(pause.map(|(begin, end)| (begin, end - course.tcp_within(begin, end))));
        }
    }

    /// Takes content of a connection whose beginning was made up.
    #[inline(never)]
    pub(super) fn content_behind_beginning(&mut self, frame: &Frame<'_>) {
        let Walk { table, initials, windows, beginning, .. } = self;
        let (Frame { side, cut, at, .. }, number) = (*frame, frame.cut.head.stream);
        let own = table.look(number, |stream| stream.sides[side].window.value(&initials[side])).flatten();
        let (left, ends) = ([own, Some(windows[side].credit)], cut.head.has(flag::END_STREAM));
        let first = cut.times.first().copied().unwrap_or(at.time);
        let content = Content { side, stream: number, first, last: at.time, ends, left };
        beginning.iter_mut().for_each(|beginning| beginning.content(&content));
    }
}
