//! What a side sends on all streams of a connection, beside which each of them is told.

use super::{Direction, Stream};
use crate::answer::{At, Nanos};

/// What its side sent on the connection from its first frame to its last content, and on how many streams; and what was
/// sent, and how many had ended, before that.
#[derive(Clone, Copy, Debug, Default, PartialEq, Eq)]
pub struct Beside {
    pub content: u64,
    pub before: u64,
    /// How long it sent that without a pause that counts where stalls do not show, and before.
    pub active: Nanos,
    pub active_before: Nanos,
    pub streams: u32,
    pub ended: u32,
}

/// What a side sent on all streams: content, how long without a pause, and when last; streams that had content, and
/// those of them that have ended.
#[derive(Clone, Copy, Debug, Default)]
pub struct Total {
    pub content: u64,
    pub active: Nanos,
    pub last: Option<Nanos>,
    pub begun: u32,
    pub ended: u32,
    /// The stream that was opened last of those that have begun; and the last packet with content of one that had begun
    /// before it, or with the end of what stood behind that.
    pub newest: u32,
    pub turn: Option<Nanos>,
}

/// So much a socket of Linux holds that is not sent yet, unless it was told to hold more.
const MOST_QUEUED: u64 = 4 << 20;

impl Total {
    /// Content of a direction ends in a packet.
    #[inline]
    pub fn passes(&mut self, one: &Direction, at: At) {
        if one.first.map_or(false, |first| first.packet < at.packet) {
            self.turn = Some(at.time);
        }
    }

    /// Whether what begins a stream stood behind what its side sent of others since it was asked for, all of which were
    /// opened before it: it comes in a packet with such content, and all of them have ended, or a socket may hold that.
    pub fn is_turn(&self, stream: &Stream, side: usize, times: &[Nanos]) -> bool {
        let is_behind = self.turn.is_some() && self.turn == times.first().copied() && self.newest < stream.order;
        let queued = self.content.saturating_sub(stream.sides[side].beside.before);
        is_behind && (self.begun == self.ended || queued <= MOST_QUEUED)
    }

    /// Content came in packets at these times; a pause is one that is longer than this.
    #[inline]
    pub fn sent(&mut self, times: &[Nanos], length: u32, pause: Nanos) {
        self.content += u64::from(length);
        if times.first() == self.last.as_ref() && times.len() == 1 {
            return;
        }
        for &time in times {
            let gap = self.last.map_or(0, |last| time.saturating_sub(last));
            self.active += if (0..=pause).contains(&gap) { gap } else { 0 };
            self.last = self.last.max(Some(time));
        }
    }
}
