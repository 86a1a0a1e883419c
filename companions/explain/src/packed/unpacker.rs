//! Reads streams from bits and numbers.

use super::{AS_LAST, AS_OPENED, DIRECTION, LIFE, NONE, NOWHERE, PLACE, SHARE, SHARES};
use crate::answer::{At, Nanos, Share, Span};
use crate::stream::{Answered, Beside, Direction, Idle, RequestFields, Reset, ResponseFields, Stream};
use crate::unshown::Unshown;
use crate::windows::CountedWindow;

/// The highest bit of each byte, which is set in all bytes of a number but the last.
const HIGHEST_BITS: u64 = 0x8080_8080_8080_8080;

/// Reads them; where there are no more, each is 0.
pub(super) struct Unpacker<'a> {
    pub(super) bytes: &'a [u8],
    pub(super) opened: At,
    pub(super) last: At,
    /// Bits that were not taken yet.
    pub(super) bits: u64,
}

impl<'a> Unpacker<'a> {
    pub(super) fn new(bytes: &'a [u8], last: At) -> Unpacker<'a> {
        Unpacker { bytes, opened: NOWHERE, last, bits: 0 }
    }

    /// Bits come, in so many bytes.
    #[inline]
    pub(super) fn take_bits<const BYTES: usize>(&mut self) {
        let mut eight = [0; 8];
        match self.bytes.get(..BYTES) {
            Some(bits) => {
                eight[..BYTES].copy_from_slice(bits);
                self.bytes = &self.bytes[BYTES..];
            }
            None => self.bytes = &[],
        }
        self.bits = u64::from_le_bytes(eight);
    }

    #[inline(always)]
    pub(super) fn few(&mut self, count: u32) -> u64 {
        let bits = self.bits & ((1 << count) - 1);
        self.bits >>= count;
        bits
    }

    #[inline(always)]
    pub(super) fn flag(&mut self) -> bool {
        self.few(1) != 0
    }

    #[inline]
    pub(super) fn byte(&mut self) -> u8 {
        match self.bytes.split_first() {
            Some((byte, rest)) => {
                self.bytes = rest;
                *byte
            }
            None => 0,
        }
    }

    #[inline(always)] // most have a byte
    pub(super) fn number(&mut self) -> u64 {
        match self.bytes {
            [only @ 0..=0x7F, rest @ ..] => {
                self.bytes = rest;
                u64::from(*only)
            }
            _ => self.long_number(),
        }
    }

    pub(super) fn eight(&mut self) -> u64 {
        let (eight, rest) = self.bytes.split_at(self.bytes.len().min(8));
        self.bytes = rest;
        eight.try_into().map_or(0, u64::from_le_bytes)
    }

    /// Reads a number of more than one byte: two, or eight at once where there are so many.
    #[inline(never)]
    pub(super) fn long_number(&mut self) -> u64 {
        if let [low, high @ 0..=0x7F, rest @ ..] = self.bytes {
            self.bytes = rest;
            return u64::from(low & 0x7F) | u64::from(*high) << 7;
        }
        let eight = self.bytes.get(..8).and_then(|eight| eight.try_into().ok());
        let word = match eight.map(u64::from_le_bytes) {
            Some(word) => word,
            None => return self.rest_of_number(0, 0),
        };
        match (!word & HIGHEST_BITS).trailing_zeros() {
            64 => {
                self.bytes = &self.bytes[8..];
                self.rest_of_number(squeezed(word), 56)
            }
            highest => {
                self.bytes = &self.bytes[highest as usize / 8 + 1..];
                squeezed(word & (u64::MAX >> (63 - highest)))
            }
        }
    }

    pub(super) fn rest_of_number(&mut self, begun: u64, at: u32) -> u64 {
        let (mut number, mut shift) = (begun, at);
        loop {
            let byte = self.byte();
            number |= u64::from(byte & 0x7F) << shift;
            shift += 7;
            if byte < 0x80 || shift > 63 {
                return number;
            }
        }
    }

    pub(super) fn small(&mut self) -> u32 {
        self.number() as u32
    }

    /// One that is 0 mostly.
    #[inline]
    pub(super) fn rare(&mut self) -> u64 {
        match self.flag() {
            true => self.number(),
            false => 0,
        }
    }

    #[inline]
    pub(super) fn signed(&mut self) -> i64 {
        let number = self.number();
        (number >> 1) as i64 ^ -((number & 1) as i64)
    }

    #[inline]
    pub(super) fn option<T>(&mut self, get: impl FnOnce(&mut Self) -> T) -> Option<T> {
        self.flag().then(|| get(self))
    }

    pub(super) fn opening(&mut self) -> At {
        let (packet, time, frame) = (self.number(), self.eight() as Nanos, self.small());
        self.last = At { packet, time, frame };
        self.opened = self.last;
        self.opened
    }

    pub(super) fn time(&mut self) -> Nanos {
        self.signed().wrapping_add(self.opened.time)
    }

    #[inline(always)] // few are told in full
    pub(super) fn at(&mut self) -> Option<At> {
        match self.few(PLACE) {
            NONE => return None,
            AS_LAST => {}
            AS_OPENED => return Some(self.opened),
            _ => self.full_place(),
        }
        Some(self.last)
    }

    #[inline(never)]
    pub(super) fn full_place(&mut self) {
        let packet = self.last.packet.wrapping_add(self.signed() as u64);
        let time = self.last.time.wrapping_add(self.signed());
        let frame = (i64::from(self.last.frame).wrapping_add(self.signed())) as u32;
        self.last = At { packet, time, frame };
    }

    pub(super) fn outline(&mut self, stream: &mut Stream) {
        let is_in_row = self.flag();
        stream.order = self.small();
        stream.number = if is_in_row { stream.order.wrapping_mul(2).wrapping_add(1) } else { self.small() };
        stream.promised_on = self.rare() as u32;
        stream.opened = self.opening();
        stream.request = self.option(|unpacker| RequestFields {
            is_empty: unpacker.flag(),
            method: unpacker.small(),
            path: unpacker.small(),
            authority: unpacker.small(),
            ids: unpacker.option(|unpacker| [(); 2].map(|()| unpacker.eight())).unwrap_or_default(),
        });
        let fields = self.option(|unpacker| Answered {
            is_informational: unpacker.flag(),
            status: unpacker.option(Unpacker::small),
            grpc_status: unpacker.option(Unpacker::small),
        });
        stream.answer = ResponseFields { fields, grpc_status: self.option(Unpacker::small) };
        stream.reset = self.option(|unpacker| Reset {
            side: usize::from(unpacker.flag()),
            at: unpacker.at().unwrap_or(NOWHERE),
            code: unpacker.small(),
        });
        stream.sides.iter_mut().for_each(|one| self.outline_of(one));
    }

    pub(super) fn outline_of(&mut self, one: &mut Direction) {
        one.content = self.rare();
        one.padding = self.rare();
        one.first = self.at();
        one.last = self.at();
        one.end = self.at();
        one.is_reset = self.flag();
    }

    pub(super) fn direction(&mut self, round_trip: Nanos, one: &mut Direction) {
        self.take_bits::<DIRECTION>();
        one.last_credit = self.option(Unpacker::signed);
        one.idle = match self.flag() {
            true => Some(self.idle(one.idle.take())),
            false => None,
        };
        one.asked = self.at().unwrap_or(NOWHERE);
        one.asked_credit = self.option(Unpacker::signed);
        one.was_silent = self.flag();
        one.beside = self.option(Unpacker::beside).unwrap_or_default();
        one.window = self.window();
        one.granted = self.rare();
        let unshown = self.option(|unpacker| Unshown::waiting(round_trip, unpacker.option(Unpacker::time)));
        one.unshown = unshown.map(Box::new);
        one.kept = None;
    }

    /// In the room of another one, where there is one.
    pub(super) fn idle(&mut self, room: Option<Box<Idle>>) -> Box<Idle> {
        let before = self.at();
        let credit = self.option(Unpacker::signed);
        let mut room = room.unwrap_or_default();
        *room = Idle { before, credit, after: self.at() };
        room
    }

    pub(super) fn beside(&mut self) -> Beside {
        let [content, before] = [(); 2].map(|()| self.number());
        let [active, active_before] = [(); 2].map(|()| self.signed());
        let [streams, ended] = [(); 2].map(|()| self.small());
        Beside { content, before, active, active_before, streams, ended }
    }

    pub(super) fn window(&mut self) -> CountedWindow {
        if !self.flag() {
            return CountedWindow::default();
        }
        let (is_live, credit) = (self.flag(), self.signed());
        let [largest, first] = [(); 2].map(|()| self.option(Unpacker::signed));
        CountedWindow { is_live, was_live: true, credit, largest, first, change: self.rare() as u32 }
    }

    pub(super) fn lives(&mut self, has_spans: bool, stream: &mut Stream) {
        let are_told = [0, 1].map(|side| self.life(&mut stream.sides[side]));
        for (one, is_told) in stream.sides.iter_mut().zip(are_told) {
            match is_told && has_spans {
                true => self.spans(one.life.spans.get_or_insert_with(Vec::new)),
                false => one.life.spans = None,
            }
        }
    }

    /// Answers whether spans of it are told.
    pub(super) fn life(&mut self, one: &mut Direction) -> bool {
        self.take_bits::<LIFE>();
        let life = &mut one.life;
        let is_ended = self.flag();
        let at = self.option(Unpacker::time);
        life.until = if is_ended { self.time() } else { Nanos::MAX };
        life.at = at.unwrap_or(life.until);
        let bits = self.few(SHARES);
        for (place, share) in life.shares.iter_mut().enumerate() {
            *share = if bits & 1 << place != 0 { self.signed() } else { 0 };
        }
        life.longest_idle = self.option(Unpacker::stretch).unwrap_or((self.opened.time, self.opened.time));
        life.has_begun = self.flag();
        life.is_silent = self.flag();
        life.stall = self.rare() as u32;
        life.count = self.rare() as u16;
        life.last = share_of(self.few(SHARE) as u8);
        one.unshown_nanos = self.option(Unpacker::signed).unwrap_or(0);
        self.flag()
    }

    pub(super) fn stretch(&mut self) -> (Nanos, Nanos) {
        let begin = self.time();
        (begin, begin.wrapping_add(self.signed()))
    }

    /// Puts them into some room.
    pub(super) fn spans(&mut self, spans: &mut Vec<Span>) {
        let count = self.number();
        let mut begin = self.time();
        spans.clear();
        spans.extend((0..count).map(|_| {
            let end = begin.wrapping_add(self.signed());
            let span = Span { begin, end, share: share_of(self.byte()) };
            begin = end;
            span
        }));
    }
}

/// Puts the lower seven bits of eight bytes beside each other.
pub(super) fn squeezed(word: u64) -> u64 {
    let pairs = (word & 0x007F_007F_007F_007F) | (word & 0x7F00_7F00_7F00_7F00) >> 1;
    let fours = (pairs & 0x0000_3FFF_0000_3FFF) | (pairs & 0x3FFF_0000_3FFF_0000) >> 2;
    (fours & 0x0FFF_FFFF) | (fours & 0x0FFF_FFFF_0000_0000) >> 4
}

pub(super) fn share_of(number: u8) -> Share {
    Share::ALL.get(usize::from(number)).copied().unwrap_or(Share::Waiting)
}
