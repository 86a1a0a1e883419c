//! What the frames of a connection tell, in the order in which they came: sides, streams, settings, windows.

use std::collections::VecDeque;

use captures::Arrival;
use cutter::{flag, kind, Cut, Head, Nanos, HEADER};
use hpack::{speaker, Speaker};

use crate::incoming::{Given, Taker};
use crate::sides::Sides;
use crate::streams::Streams;
use crate::windows::{BoundedWindow, Content, Sender};

/// So much of a field block is looked at, and of SETTINGS.
const FRONT: usize = 256;
/// So many SETTINGS that wait for their acknowledgement are told from each other.
const MOST_WAITING: usize = 4096;
const INITIAL_WINDOW: u16 = 4;
const ENABLE_PUSH: u16 = 2;
/// The code of an error (RFC 9113, 7).
const FLOW_CONTROL_ERROR: u32 = 3;
const USUAL_FRAME: u32 = 1 << 14;

/// How many bytes of a payload are wanted.
pub fn wants(head: &Head) -> usize {
    match head.kind {
        kind::HEADERS | kind::PUSH_PROMISE | kind::SETTINGS => FRONT,
        kind::RST_STREAM | kind::WINDOW_UPDATE => 4,
        kind::GOAWAY => 8,
        _ => 0,
    }
}

/// All that is known, by the flow that sends.
pub struct JoinedCourse {
    pub sides: Sides,
    pub streams: Streams,
    pub senders: [Sender; 2],
    /// The initial windows of SETTINGS that wait for their acknowledgement.
    waiting: [VecDeque<Option<u32>>; 2],
    /// Acknowledgements of SETTINGS from before the beginning.
    pub acknowledged_before: [u32; 2],
    /// Where the last byte came of the frame that the cut divides.
    pub divided: [Option<Arrival>; 2],
    /// The longest frame.
    pub longest: [u32; 2],
    /// Whether a flow has field blocks.
    pub has_blocks: [bool; 2],
    pub frames: u64,
}

impl JoinedCourse {
    pub fn new(beginning: Nanos) -> JoinedCourse {
        JoinedCourse {
            sides: Sides::default(),
            streams: Streams::new(beginning),
            senders: [Sender::new(beginning), Sender::new(beginning)],
            waiting: Default::default(),
            acknowledged_before: [0; 2],
            divided: [None; 2],
            longest: [USUAL_FRAME; 2],
            has_blocks: [false; 2],
            frames: 0,
        }
    }

    #[inline(never)]
    fn begins(&mut self, flow: usize, last: Arrival) {
        self.senders[flow] = Sender::new(last.nanos);
        self.streams.begins(flow, last.nanos);
        self.divided[flow] = Some(last);
    }

    /// Most frames are content and grants.
    fn frame(&mut self, flow: usize, cut: &Cut<'_>) {
        self.frames += 1;
        self.longest[flow] = self.longest[flow].max(cut.head.length);
        let first = cut.times.first().copied().unwrap_or_default();
        let last = cut.times.last().copied().unwrap_or(first);
        match cut.head.kind {
            kind::DATA => self.content(flow, cut.head, first, last),
            kind::WINDOW_UPDATE => self.grant(flow, cut, last),
            _ => self.other(flow, cut, last),
        }
    }

    #[inline(never)]
    fn other(&mut self, flow: usize, cut: &Cut<'_>, last: Nanos) {
        match cut.head.kind {
            kind::HEADERS => self.headers(flow, cut, last),
            kind::PRIORITY => self.sides.priority(flow),
            kind::RST_STREAM => self.reset(flow, cut),
            kind::SETTINGS => self.settings(flow, cut, last),
            kind::PUSH_PROMISE => self.promise(flow, cut),
            kind::GOAWAY => self.go_away(flow, cut),
            _ => {}
        }
    }

    #[inline(never)]
    fn content(&mut self, flow: usize, head: Head, first: Nanos, last: Nanos) {
        let Head { length, stream, .. } = head;
        let is_end = head.has(flag::END_STREAM);
        self.sides.content(flow, u64::from(length));
        let (own, other) = match self.streams.get(stream).map(|found| &mut found.windows) {
            Some([own, other]) if flow == 0 => (Some(own), Some(other)),
            Some([other, own]) => (Some(own), Some(other)),
            None => (None, None),
        };
        if length > 0 {
            self.senders[flow].content(own, Content { first, last, length, is_end });
        }
        if let Some(other) = other {
            other.spoken(last);
        }
        if is_end {
            self.streams.end(stream, &[flow]);
        }
    }

    fn headers(&mut self, flow: usize, cut: &Cut<'_>, last: Nanos) {
        let stream = cut.head.stream;
        self.has_blocks[flow] = true;
        let said = self.said_by(flow, cut);
        if self.opens(flow, stream, said) {
            self.streams.begin(stream, [BoundedWindow::opened(true), BoundedWindow::opened(true)]);
        }
        if let Some(found) = self.streams.get(stream) {
            found.windows[1 - flow].spoken(last);
        }
        if cut.head.has(flag::END_STREAM) {
            self.streams.end(stream, &[flow]);
        }
    }

    /// Who says a block, as long as that tells anything.
    fn said_by(&mut self, flow: usize, cut: &Cut<'_>) -> Option<Speaker> {
        if self.sides.knows_fields() && self.streams.first_opened().is_some() {
            return None;
        }
        let said = speaker_of(cut, if cut.head.has(flag::PRIORITY) { 5 } else { 0 });
        self.sides.block(flow, said);
        said
    }

    /// Whether HEADERS open a stream: as a request, or above all streams if only the dynamic table has their fields.
    fn opens(&self, flow: usize, stream: u32, said: Option<Speaker>) -> bool {
        let is_client = self.sides.is_client(flow) == Some(true);
        let is_request = said == Some(Speaker::Client);
        let may_open = self.streams.may_open(stream);
        is_client
            && stream % 2 == 1
            && match self.streams.first_opened() {
                None => (is_request || said.is_none() && may_open) && !self.streams.is_known(stream),
                // It is above all that were met.
                Some(_) => may_open,
            }
    }

    fn promise(&mut self, flow: usize, cut: &Cut<'_>) {
        self.has_blocks[flow] = true;
        self.sides.promise(flow);
        let promised = match cut.body(4).and_then(|(begin, _)| cut.payload.get(begin - 4..begin)) {
            Some(&[a, b, c, d]) => u32::from_be_bytes([a & 0x7f, b, c, d]),
            _ => return,
        };
        self.streams.get(cut.head.stream);
        if promised > 0 && promised % 2 == 0 && self.streams.may_open(promised) {
            let windows = [0, 1].map(|of| BoundedWindow::opened(of == flow));
            self.streams.begin(promised, windows);
            self.streams.end(promised, &[1 - flow]);
        }
    }

    fn reset(&mut self, flow: usize, cut: &Cut<'_>) {
        let stream = cut.head.stream;
        let is_refused = cut.number() == Some(FLOW_CONTROL_ERROR);
        if let Some(found) = self.streams.get(stream) {
            let window = &mut found.windows[1 - flow];
            if is_refused {
                window.is_refused = true;
                self.senders[1 - flow].is_initial_refused |= window.open().is_none();
            }
        }
        self.streams.end(stream, &[0, 1]);
    }

    fn go_away(&mut self, flow: usize, cut: &Cut<'_>) {
        let number = |at: usize| cut.payload.get(at..at + 4).and_then(|it| it.try_into().ok()).map(u32::from_be_bytes);
        if let Some(last) = number(0) {
            self.sides.go_away(flow, last & 0x7fff_ffff);
        }
        self.senders[1 - flow].is_refused |= number(4) == Some(FLOW_CONTROL_ERROR);
    }

    fn settings(&mut self, flow: usize, cut: &Cut<'_>, time: Nanos) {
        if cut.head.has(flag::ACK) {
            match self.waiting[1 - flow].pop_front() {
                None => self.acknowledged_before[flow] = self.acknowledged_before[flow].saturating_add(1),
                Some(initial) => initial.into_iter().for_each(|initial| self.senders[flow].change(time, initial)),
            }
            return;
        }
        let mut initial = None;
        for pair in cut.payload.chunks_exact(6) {
            let (identifier, value) = (u16::from_be_bytes([pair[0], pair[1]]), &pair[2..]);
            match identifier {
                INITIAL_WINDOW => initial = value.try_into().ok().map(u32::from_be_bytes),
                ENABLE_PUSH => self.sides.enable_push(flow),
                _ => {}
            }
        }
        if self.waiting[flow].len() < MOST_WAITING {
            self.waiting[flow].push_back(initial);
        }
    }

    fn grant(&mut self, flow: usize, cut: &Cut<'_>, time: Nanos) {
        let amount = match cut.number() {
            Some(number) if cut.head.length == 4 => number & 0x7fff_ffff,
            _ => return,
        };
        if cut.head.stream == 0 {
            self.senders[1 - flow].grant(time, amount);
        } else if let Some(found) = self.streams.get(cut.head.stream) {
            self.senders[1 - flow].grant_stream(&mut found.windows[1 - flow], time, amount);
        }
    }
}

impl Taker for JoinedCourse {
    #[inline]
    fn given(&mut self, flow: usize, given: Given<'_, '_>) {
        match given {
            Given::Begins(last) => self.begins(flow, last),
            Given::Frame(cut) => self.frame(flow, cut),
        }
    }

    /// Takes content, as it is most of what comes.
    #[inline]
    fn frames(&mut self, flow: usize, bytes: &[u8], time: Nanos) -> usize {
        let mut rest = bytes;
        while let Some((head, behind)) = content_at(rest) {
            let after = self.plain_contents(flow, rest, time);
            if after.len() < rest.len() {
                rest = after;
                continue;
            }
            rest = behind;
            self.frames += 1;
            self.longest[flow] = self.longest[flow].max(head.length);
            self.content(flow, head, time, time);
        }
        bytes.len() - rest.len()
    }
}

impl JoinedCourse {
    /// Takes contents at the beginning of bytes by which nothing changes but credits, and answers what stands behind.
    #[inline(never)]
    fn plain_contents<'a>(&mut self, flow: usize, bytes: &'a [u8], time: Nanos) -> &'a [u8] {
        let mut rest = bytes;
        let mut run = match self.senders[flow].run() {
            Some(run) => run,
            None => return rest,
        };
        while let Some((head, behind)) = content_at(rest) {
            let [own, other] = match self.streams.recent(head.stream).map(|found| &mut found.windows) {
                Some([own, other]) if flow == 0 => [own, other],
                Some([other, own]) => [own, other],
                None => break,
            };
            if head.length == 0 || head.has(flag::END_STREAM) || !run.takes(own, head.length) {
                break;
            }
            other.spoken(time);
            rest = behind;
        }
        let (contents, content, longest) = run.end(time);
        self.frames += u64::from(contents);
        self.longest[flow] = longest.max(self.longest[flow]);
        self.sides.content(flow, content as u64);
        rest
    }
}

/// A whole frame of content at the beginning of bytes, and what stands behind it.
#[inline(always)]
fn content_at(bytes: &[u8]) -> Option<(Head, &[u8])> {
    let head = Head::of(bytes.get(..HEADER)?.try_into().ok()?);
    let behind = bytes.get(HEADER + head.length as usize..)?;
    (head.kind == kind::DATA).then_some((head, behind))
}

fn speaker_of(cut: &Cut<'_>, fields: usize) -> Option<Speaker> {
    let (begin, end) = cut.body(fields)?;
    speaker(cut.payload.get(begin..end.min(cut.payload.len()))?)
}

#[cfg(test)]
mod tests {
    use super::*;

    fn taken(course: &mut JoinedCourse, flow: usize, kind: u8, flags: u8, stream: u32, payload: &[u8]) {
        let head = Head { length: payload.len() as u32, kind, flags, stream };
        course.given(flow, Given::Frame(&Cut { head, payload, times: &[0], arrived: &[] }));
    }

    fn open_ones(course: &JoinedCourse) -> Vec<u32> {
        course.streams.open().map(|(id, _)| id).collect()
    }

    const REQUEST: &[u8] = b"\x82\x84\x87";

    #[test]
    fn requests_open_streams() {
        let mut course = JoinedCourse::new(0);
        taken(&mut course, 0, kind::DATA, 0, 5, &[0; 9]);
        taken(&mut course, 1, kind::HEADERS, flag::END_STREAM, 7, REQUEST);
        taken(&mut course, 0, kind::HEADERS, 0, 7, b"\x88");
        assert_eq!(course.sides.is_client(1), Some(true));
        assert_eq!((open_ones(&course), course.streams.first_opened()), (vec![5], Some(7)));
        taken(&mut course, 1, kind::HEADERS, 0, 9, b"\xbe\xbf");
        assert_eq!(open_ones(&course), [5], "above all, its fields in the dynamic table");
        assert!(course.streams.is_known(9));
    }

    /// HEADERS of the client below what was met are trailers, unless they are a request.
    #[test]
    fn trailers_open_none() {
        let mut course = JoinedCourse::new(0);
        taken(&mut course, 0, kind::PRIORITY, 0, 3, &[0; 5]);
        taken(&mut course, 0, kind::DATA, 0, 9, &[0; 9]);
        taken(&mut course, 0, kind::HEADERS, flag::END_STREAM, 5, b"\xbe");
        assert_eq!((open_ones(&course), course.streams.first_opened()), (vec![5, 9], None));
        taken(&mut course, 0, kind::HEADERS, flag::END_STREAM, 11, REQUEST);
        taken(&mut course, 0, kind::HEADERS, flag::END_STREAM, 7, b"\xbe");
        assert_eq!((open_ones(&course), course.streams.first_opened()), (vec![5, 7, 9], Some(11)));
    }

    #[test]
    fn promises_open_streams() {
        let mut course = JoinedCourse::new(0);
        taken(&mut course, 1, kind::PUSH_PROMISE, flag::END_HEADERS, 1, b"\0\0\0\x04\x82");
        assert_eq!((course.sides.is_client(0), open_ones(&course)), (Some(true), vec![1]));
        taken(&mut course, 1, kind::DATA, 0, 4, &[0; 7]);
        taken(&mut course, 1, kind::DATA, 0, 2, &[0; 7]);
        assert_eq!(open_ones(&course), [1, 2]);
        assert_eq!(course.senders[1].initial.least(), Some(7));
    }

    #[test]
    fn acknowledgements_of_settings_from_before() {
        let mut course = JoinedCourse::new(0);
        taken(&mut course, 0, kind::SETTINGS, flag::ACK, 0, b"");
        taken(&mut course, 1, kind::SETTINGS, 0, 0, &[0, 4, 0, 0, 0, 9]);
        taken(&mut course, 0, kind::SETTINGS, flag::ACK, 0, b"");
        taken(&mut course, 0, kind::SETTINGS, flag::ACK, 0, b"");
        assert_eq!(course.acknowledged_before, [2, 0]);
        assert!(course.senders[0].has_changed() && !course.senders[1].has_changed());
    }

    #[test]
    fn errors_of_flow_control() {
        let mut course = JoinedCourse::new(0);
        taken(&mut course, 0, kind::RST_STREAM, 0, 3, &[0, 0, 0, 3]);
        taken(&mut course, 1, kind::GOAWAY, 0, 0, &[0, 0, 0, 3, 0, 0, 0, 3]);
        assert_eq!([0, 1].map(|flow| course.senders[flow].is_refused), [true, false]);
        assert_eq!(course.sides.is_client(0), Some(true));
        let refused: Vec<_> = course.streams.open().map(|(_, stream)| stream.windows[1].is_refused).collect();
        assert_eq!(refused, [true]);
    }

    #[test]
    fn the_longest_frame() {
        let mut course = JoinedCourse::new(0);
        taken(&mut course, 1, kind::DATA, 0, 1, &[0; 20_000]);
        assert_eq!(course.longest, [16_384, 20_000]);
    }
}
