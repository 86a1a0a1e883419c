//! What the peers of a connection said at the end (docs/WHY.md, 7).

use std::collections::BinaryHeap;

use crate::answer::{At, Ended, How, Signal};
use crate::names::text_of;
use crate::seen::Refusal;
use crate::side_of;
use crate::stream::{Reset, Stream};

const MOST_SIGNALS: usize = 10_000;
/// Codes that say no error: NO_ERROR, REFUSED_STREAM, CANCEL (RFC 9113, 7).
const ORDINARY: [u32; 3] = [0, 7, 8];

#[derive(Debug, Default)]
pub struct Signals {
    goaways: Vec<Signal>,
    /// Resets with an error of the streams that were opened first: order, and what was said.
    resets: BinaryHeap<(u32, OfStream)>,
    error: Option<Ended>,
    pub refusing: [Option<Refusal>; 2],
}

/// A stream's reset, by its frame.
#[derive(Debug, PartialEq, Eq, PartialOrd, Ord)]
struct OfStream {
    frame: u32,
    side: usize,
    packet: u64,
    time: i64,
    code: u32,
    stream: u32,
}

impl Signals {
    pub fn goaway(&mut self, side: usize, at: At, (last, code): (u32, u32), debug: &[u8]) {
        if self.refusing[side].map_or(true, |one| last < one.last) {
            self.refusing[side] = Some(Refusal { side, at, last, code });
        }
        if code != 0 && self.error.is_none() {
            self.error = Some(Ended { how: How::GoAway, side: Some(side_of(side)), code: Some(code), at: Some(at) });
        }
        if self.goaways.len() < MOST_SIGNALS {
            let debug = (!debug.is_empty()).then(|| text_of(debug).into_owned());
            let side = side_of(side);
            self.goaways.push(Signal { is_goaway: true, side, at, code, stream: 0, last: Some(last), debug });
        }
    }

    pub fn reset(&mut self, stream: &Stream, reset: &Reset) {
        let Reset { side, at, code } = *reset;
        if ORDINARY.contains(&code) {
            return;
        }
        let said = OfStream { frame: at.frame, side, packet: at.packet, time: at.time, code, stream: stream.number };
        self.resets.push((stream.order, said));
        if self.resets.len() > 2 * MOST_SIGNALS {
            self.resets.pop();
        }
    }

    /// By GOAWAY with an error where there is one.
    pub fn error(&self) -> Option<Ended> {
        self.error
    }

    /// All GOAWAY, and resets of streams that name an error, in the order of frames.
    pub fn said(self) -> Vec<Signal> {
        let mut said = self.goaways;
        let resets = self.resets.into_sorted_vec().into_iter().take(2 * MOST_SIGNALS - said.len());
        said.extend(resets.map(|(_, one)| Signal {
            is_goaway: false,
            side: side_of(one.side),
            at: At { packet: one.packet, time: one.time, frame: one.frame },
            code: one.code,
            stream: one.stream,
            last: None,
            debug: None,
        }));
        said.sort_by_key(|one| one.at.frame);
        said
    }
}

#[cfg(test)]
mod tests {
    use super::*;

    fn at(frame: u32) -> At {
        At { packet: u64::from(frame), time: 0, frame }
    }

    #[test]
    fn what_peers_said() {
        let mut signals = Signals::default();
        for (frame, stream, code) in [(7, 3, 8), (8, 3, 2), (5, 1, 11)] {
            let stream = Stream::new(stream, stream, at(1), false);
            signals.reset(&stream, &Reset { side: 0, at: at(frame), code });
        }
        signals.goaway(1, at(6), (9, 0), b"");
        signals.goaway(1, at(9), (5, 0), b"a\xff");
        signals.goaway(0, at(10), (5, 3), b"");
        assert_eq!(signals.refusing[1].map(|one| (one.last, one.at.frame)), Some((5, 9)));
        assert_eq!(signals.error().and_then(|error| error.code), Some(3));
        let said = signals.said();
        let frames: Vec<_> = said.iter().map(|one| (one.at.frame, one.is_goaway, one.code)).collect();
        assert_eq!(frames, [(5, false, 11), (6, true, 0), (8, false, 2), (9, true, 0), (10, true, 3)]);
        assert_eq!((said[1].debug.as_deref(), said[3].debug.as_deref()), (None, Some("a\\xff")));
    }

    #[test]
    fn of_many_resets_those_of_the_first_streams() {
        let mut signals = Signals::default();
        for number in (0..3 * MOST_SIGNALS as u32).rev() {
            let stream = Stream::new(number, number, at(1), false);
            signals.reset(&stream, &Reset { side: 0, at: at(number + 1), code: 2 });
        }
        let said = signals.said();
        assert_eq!(
            (said.len(), said.last().map(|one| one.stream)),
            (2 * MOST_SIGNALS, Some(2 * MOST_SIGNALS as u32 - 1))
        );
    }
}
