//! Frames of a made-up beginning: they move windows, open streams and fill tables, and nothing is told of them.

use super::{Asking, Frame, Walk, STREAM};
use crate::charts::Left;
use crate::cutter::{flag, kind};
use crate::windows::ConnectionWindow;

impl Walk {
    /// Takes one, which has no number.
    pub(super) fn make_up(&mut self, asking: &mut Asking, frame: &Frame<'_>) {
        let Frame { side, cut, at, .. } = *frame;
        let number = cut.head.stream;
        match cut.head.kind {
            kind::DATA => {
                let (length, ends) = (cut.head.length, cut.head.has(flag::END_STREAM));
                self.windows[side].content(length);
                let Walk { table, initials, .. } = self;
                table.touch(number, |stream| {
                    let window = &mut stream.sides[side].window;
                    window.content(&initials[side], length);
                    ends.then(|| window.end(&initials[side]));
                });
            }
            kind::HEADERS => {
                if side == import::CLIENT && self.about.was_open(number) {
                    self.open_again(asking, frame, number);
                }
                self.blocks[side].begin(at, (number, false), cut.payload, true);
            }
            kind::SETTINGS => self.settings(asking, frame),
            kind::PUSH_PROMISE => {
                let promised = cut.number().map_or(0, |number| number & STREAM);
                self.open_again(asking, frame, promised);
            }
            kind::WINDOW_UPDATE => self.grant(frame),
            _ => {}
        }
        self.made(frame);
    }

    /// A stream was open. What its request asked for is known where that was read before a gap.
    fn open_again(&mut self, asking: &Asking, frame: &Frame<'_>, number: u32) {
        self.open(asking, frame, number, 0);
        if let Some(asked) = self.asked_before.remove(&number) {
            self.table.touch(number, |stream| stream.request = Some(asked));
        }
    }

    /// Where all that was made up came, windows stand as they did when the capture began.
    fn made(&mut self, frame: &Frame<'_>) {
        let inferred = match &mut self.beginning {
            Some(beginning) => {
                beginning.left -= 1;
                if beginning.left > 0 {
                    return;
                }
                beginning.inferred.clone()
            }
            None => return,
        };
        for window in &mut self.windows {
            *window = ConnectionWindow { largest: None, first: None, ..*window };
        }
        let Walk { table, initials, windows, charts, .. } = self;
        if let Some(charts) = charts {
            charts.after(&Left { at: frame.at, kind: kind::SETTINGS, stream: 0, table, initials, windows });
        }
        for number in &inferred.open {
            table.touch(*number, |stream| {
                for (one, initial) in stream.sides.iter_mut().zip(&*initials) {
                    one.window.begin_anew(initial);
                    one.granted = 0;
                }
            });
            if let Some(charts) = charts {
                charts.opened = Some(*number);
                charts.after(&Left { at: frame.at, kind: kind::HEADERS, stream: *number, table, initials, windows });
            }
        }
    }
}
