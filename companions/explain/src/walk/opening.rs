//! HEADERS, PUSH_PROMISE and CONTINUATION frames: they open streams, and their field blocks name them.

use super::directions::met;
use super::{Asking, Frame, Walk, STREAM};
use crate::answer::is_pushed;
use crate::blocks::{answered_of, asked_of, Decoded};
use crate::cutter::flag;
use crate::stream::{Kept, RequestFields, Stream};
use crate::unshown::Unshown;

const PRIORITY_FIELDS: usize = 5;
const PROMISED_STREAM: usize = 4;

impl Walk {
    pub(super) fn headers(&mut self, asking: &mut Asking, frame: &Frame<'_>) {
        let Frame { side, cut, .. } = *frame;
        let fields = if cut.head.has(flag::PRIORITY) { PRIORITY_FIELDS } else { 0 };
        let body = cut.body(fields);
        let number = cut.head.stream;
        if body.is_some() {
            if side == import::CLIENT && number % 2 == 1 && !self.table.has(number) {
                self.open(asking, frame, number, 0);
            }
            let Walk { table, initials, windows, about, uses_window, totals, .. } = self;
            table.touch(number, |stream| {
                met(stream, frame, about, (initials, windows), totals);
                stream.note_use(uses_window);
            });
        }
        let octets = body.and_then(|(begin, end)| cut.payload.get(begin..end.min(cut.payload.len())));
        self.block(asking, frame, (number, false), octets.unwrap_or_default());
    }

    /// A stream opens by HEADERS of the client, or by a promise of the server.
    pub(super) fn open(&mut self, asking: &Asking, frame: &Frame<'_>, number: u32, promised_on: u32) {
        self.charts.iter_mut().for_each(|charts| charts.opened = Some(number));
        let Walk { table, initials, about, known, windows, early_grants, totals, .. } = self;
        let is_pushed = is_pushed(number);
        let ends_client = is_pushed || frame.cut.head.has(flag::END_STREAM);
        table.open(number, |order| {
            let mut stream = Stream::new(number, order, frame.at, asking.has_spans);
            stream.promised_on = promised_on;
            for (side, one) in stream.sides.iter_mut().enumerate() {
                if frame.is_judged && !(side == import::CLIENT && ends_client) {
                    one.window.open(&initials[side]);
                }
                one.unshown = Walk::unshown_of(about, side).map(|nanos| Box::new(Unshown::new(nanos)));
                if !early_grants.is_empty() {
                    let grants = early_grants.remove(&(side, number)).unwrap_or_default();
                    grants.iter().for_each(|(time, amount)| one.granted(*time, *amount, known.back.is_none()));
                }
                one.kept = known.back.map(|_| Box::new(Kept::default()));
                one.begin_beside(&totals[side]);
                one.asked_credit = one.window.value(&initials[side]).map(|credit| credit.min(windows[side].credit));
            }
            if is_pushed {
                stream.sides[import::CLIENT].finish_at(frame.at);
            }
            stream
        });
    }

    pub(super) fn promise(&mut self, asking: &mut Asking, frame: &Frame<'_>) {
        let Frame { side, cut, .. } = *frame;
        let (begin, end) = match cut.body(PROMISED_STREAM) {
            Some(body) => body,
            None => return,
        };
        let named = cut.payload.get(begin - PROMISED_STREAM..begin).and_then(|bytes| bytes.try_into().ok());
        let number = named.map_or(0, u32::from_be_bytes) & STREAM;
        let is_new = number != 0 && number != cut.head.stream && !self.table.has(number);
        if side == import::SERVER && number % 2 == 0 && is_new {
            self.open(asking, frame, number, cut.head.stream);
        }
        let octets = cut.payload.get(begin..end.min(cut.payload.len())).unwrap_or_default();
        self.block(asking, frame, (number, true), octets);
    }

    pub(super) fn block(&mut self, asking: &mut Asking, frame: &Frame<'_>, of: (u32, bool), octets: &[u8]) {
        let is_whole = frame.cut.head.has(flag::END_HEADERS);
        let decoded = self.blocks[frame.side].begin(frame.at, of, octets, is_whole);
        self.decoded(asking, frame.side, decoded);
    }

    pub(super) fn continuation(&mut self, asking: &mut Asking, frame: &Frame<'_>) {
        let Frame { side, cut, .. } = *frame;
        let is_promise = match self.blocks[side].is_promise() {
            Some(is_promise) => is_promise,
            None => return,
        };
        if !is_promise {
            let Walk { table, initials, windows, about, totals, .. } = self;
            table.touch(cut.head.stream, |stream| met(stream, frame, about, (initials, windows), totals));
        }
        let decoded = self.blocks[side].go_on(cut.payload, cut.head.has(flag::END_HEADERS));
        self.decoded(asking, side, decoded);
    }

    pub(super) fn decoded(&mut self, asking: &mut Asking, side: usize, decoded: Option<Decoded>) {
        let Decoded { stream, is_promise, fields } = match decoded {
            Some(decoded) => decoded,
            None => return,
        };
        let Asking { names, interner, .. } = asking;
        self.table.touch(stream, |stream| {
            let is_known = |request: RequestFields| !is_promise || !request.is_empty;
            let is_asked = stream.request.map_or(false, is_known);
            if (is_promise || side == import::CLIENT) && !is_asked {
                stream.request = Some(asked_of(&fields, *names, interner));
            }
            if !is_promise && side == import::SERVER {
                stream.answer.take(answered_of(&fields));
            }
        });
    }
}
