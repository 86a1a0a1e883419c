//! Connections whose SYN was captured and whose SYN ACK was not. What the client acknowledges before it sends anything
//! is the number behind the SYN ACK's, if the server's first bytes stand there: so the SYN ACK can be made up.

use std::collections::HashMap;

use captures::{flags, made_headers, swapped, Ends, Segment, MADE_HEADERS};
use joined::is_first_of_server;

use crate::ends_hashing::EndsHashing;

/// By the ends of what the client sends.
#[derive(Default)]
pub struct Answers {
    waiting: HashMap<Ends, Waiting, EndsHashing>,
}

struct Waiting {
    /// The number of the SYN.
    initial: u32,
    /// What the client acknowledges with its first number.
    acknowledged: Option<u32>,
}

impl Answers {
    /// Whether no SYN waits for its answer.
    #[inline]
    pub fn is_empty(&self) -> bool {
        self.waiting.is_empty()
    }

    /// Takes a segment, and answers the SYN ACK that is missing before it.
    pub fn take(&mut self, segment: &Segment<'_>) -> Option<[u8; MADE_HEADERS]> {
        let both = flags::SYN | flags::ACK;
        match segment.flags & both {
            flags::SYN => {
                let opened = Waiting { initial: segment.sequence, acknowledged: None };
                let known = self.waiting.entry(segment.ends).or_insert(opened);
                if known.initial != segment.sequence {
                    *known = Waiting { initial: segment.sequence, acknowledged: None };
                }
                None
            }
            _ if self.waiting.is_empty() => None,
            answer if answer == both => {
                self.waiting.remove(&swapped(&segment.ends));
                None
            }
            _ => self.behind_opening(segment),
        }
    }

    fn behind_opening(&mut self, segment: &Segment<'_>) -> Option<[u8; MADE_HEADERS]> {
        if let Some(own) = self.waiting.get_mut(&segment.ends) {
            if own.acknowledged.is_none() && segment.sequence == own.initial.wrapping_add(1) {
                own.acknowledged = (segment.flags & flags::ACK != 0).then_some(segment.acknowledgement);
            }
            return None;
        }
        let client = swapped(&segment.ends);
        let own = self.waiting.get(&client)?;
        if own.acknowledged != Some(segment.sequence) || !is_first_of_server(segment.payload()) {
            return None;
        }
        let numbers = [segment.sequence.wrapping_sub(1), own.initial.wrapping_add(1)];
        self.waiting.remove(&client);
        Some(made_headers(&segment.ends, numbers, flags::SYN | flags::ACK, 0))
    }
}
