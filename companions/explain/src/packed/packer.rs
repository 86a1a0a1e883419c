//! Writes streams as bits and numbers.

use super::{AS_LAST, AS_OPENED, IN_FULL, NONE, NOWHERE, PLACE, SHARE, SHARES};
use crate::answer::{At, Nanos, Span};
use crate::stream::{Beside, Direction, Stream};
use crate::windows::CountedWindow;

/// Writes numbers.
pub(super) struct Packer<'a> {
    pub(super) bytes: &'a mut Vec<u8>,
    pub(super) opened: At,
    /// The last place that was written in full.
    pub(super) last: At,
    /// Bits that go before what is written meanwhile, and how many.
    pub(super) bits: u64,
    pub(super) count: u32,
}

impl Packer<'_> {
    pub(super) fn new(bytes: &mut Vec<u8>, last: At) -> Packer<'_> {
        Packer { bytes, opened: NOWHERE, last, bits: 0, count: 0 }
    }

    /// Writes something, and in so many bytes before it its bits.
    pub(super) fn with_bits<const BYTES: usize>(&mut self, put: impl FnOnce(&mut Self)) {
        let begin = self.bytes.len();
        self.bytes.extend_from_slice(&[0; BYTES]);
        put(self);
        debug_assert!(self.count as usize <= 8 * BYTES);
        self.bytes[begin..begin + BYTES].copy_from_slice(&self.bits.to_le_bytes()[..BYTES]);
        (self.bits, self.count) = (0, 0);
    }

    #[inline]
    pub(super) fn few(&mut self, bits: u64, count: u32) {
        self.bits |= bits << self.count;
        self.count += count;
    }

    #[inline]
    pub(super) fn flag(&mut self, is_so: bool) {
        self.few(u64::from(is_so), 1);
    }

    #[inline]
    pub(super) fn number(&mut self, number: u64) {
        let mut rest = number;
        while rest >= 0x80 {
            self.bytes.push(rest as u8 | 0x80);
            rest >>= 7;
        }
        self.bytes.push(rest as u8);
    }

    pub(super) fn numbers(&mut self, numbers: &[u32]) {
        numbers.iter().for_each(|number| self.number(u64::from(*number)));
    }

    /// Packs a number that is mostly 0.
    #[inline]
    pub(super) fn rare(&mut self, number: u64) {
        self.flag(number != 0);
        if number != 0 {
            self.number(number);
        }
    }

    #[inline]
    pub(super) fn signed(&mut self, number: i64) {
        self.number((number << 1 ^ number >> 63) as u64);
    }

    #[inline]
    pub(super) fn option<T>(&mut self, value: Option<T>, put: impl FnOnce(&mut Self, T)) {
        self.flag(value.is_some());
        if let Some(value) = value {
            put(self, value);
        }
    }

    pub(super) fn small(&mut self, value: Option<u32>) {
        self.option(value, |packer, value| packer.number(u64::from(value)));
    }

    /// Packs the first place, beside which others are told.
    pub(super) fn opening(&mut self, at: At) {
        self.number(at.packet);
        self.bytes.extend_from_slice(&at.time.to_le_bytes());
        self.number(u64::from(at.frame));
        (self.opened, self.last) = (at, at);
    }

    pub(super) fn time(&mut self, time: Nanos) {
        self.signed(time.wrapping_sub(self.opened.time));
    }

    pub(super) fn at(&mut self, at: Option<At>) {
        match at {
            None => self.few(NONE, PLACE),
            Some(at) if at == self.last => self.few(AS_LAST, PLACE),
            Some(at) if at == self.opened => self.few(AS_OPENED, PLACE),
            Some(at) => {
                self.few(IN_FULL, PLACE);
                self.signed(at.packet.wrapping_sub(self.last.packet) as i64);
                self.signed(at.time.wrapping_sub(self.last.time));
                self.signed(i64::from(at.frame) - i64::from(self.last.frame));
                self.last = at;
            }
        }
    }

    pub(super) fn outline(&mut self, stream: &Stream) {
        let is_in_row = u64::from(stream.number) == 2 * u64::from(stream.order) + 1;
        self.flag(is_in_row);
        self.number(u64::from(stream.order));
        if !is_in_row {
            self.number(u64::from(stream.number));
        }
        self.rare(u64::from(stream.promised_on));
        self.opening(stream.opened);
        self.option(stream.request, |packer, asked| {
            packer.flag(asked.is_empty);
            packer.numbers(&[asked.method, asked.path, asked.authority]);
            packer.option(Some(asked.ids).filter(|ids| *ids != [0; 2]), |packer, ids| {
                ids.iter().for_each(|id| packer.bytes.extend_from_slice(&id.to_le_bytes()));
            });
        });
        self.option(stream.answer.fields, |packer, fields| {
            packer.flag(fields.is_informational);
            packer.small(fields.status);
            packer.small(fields.grpc_status);
        });
        self.small(stream.answer.grpc_status);
        self.option(stream.reset, |packer, reset| {
            packer.flag(reset.side != 0);
            packer.at(Some(reset.at));
            packer.number(u64::from(reset.code));
        });
        stream.sides.iter().for_each(|side| self.outline_of(side));
    }

    pub(super) fn outline_of(&mut self, one: &Direction) {
        self.rare(one.content);
        self.rare(one.padding);
        [one.first, one.last, one.end].into_iter().for_each(|at| self.at(at));
        self.flag(one.is_reset);
    }

    pub(super) fn direction(&mut self, one: &Direction) {
        self.option(one.last_credit, Packer::signed);
        self.option(one.idle.as_deref(), |packer, idle| {
            packer.at(idle.before);
            packer.option(idle.credit, Packer::signed);
            packer.at(idle.after);
        });
        self.at(Some(one.asked));
        self.option(one.asked_credit, Packer::signed);
        self.flag(one.was_silent);
        self.option(Some(one.beside).filter(|beside| *beside != Beside::default()), Packer::beside);
        self.window(&one.window);
        self.rare(one.granted);
        self.option(one.unshown.as_deref(), |packer, unshown| packer.option(unshown.since, Packer::time));
    }

    pub(super) fn beside(&mut self, one: Beside) {
        [one.content, one.before].into_iter().for_each(|bytes| self.number(bytes));
        [one.active, one.active_before].into_iter().for_each(|nanos| self.signed(nanos));
        self.numbers(&[one.streams, one.ended]);
    }

    pub(super) fn window(&mut self, window: &CountedWindow) {
        self.flag(window.was_live);
        if window.was_live {
            self.flag(window.is_live);
            self.signed(window.credit);
            self.option(window.largest, Packer::signed);
            self.option(window.first, Packer::signed);
            self.rare(u64::from(window.change));
        }
    }

    pub(super) fn life(&mut self, one: &Direction) {
        let life = &one.life;
        let is_ended = life.until != Nanos::MAX;
        self.flag(is_ended);
        self.option(Some(life.at).filter(|at| !is_ended || *at != life.until), Packer::time);
        if is_ended {
            self.time(life.until);
        }
        let shares = life.shares.iter();
        self.few(shares.enumerate().fold(0, |bits, (at, nanos)| bits | u64::from(*nanos != 0) << at), SHARES);
        life.shares.iter().filter(|nanos| **nanos != 0).for_each(|nanos| self.signed(*nanos));
        self.option(
            Some(life.longest_idle).filter(|idle| *idle != (self.opened.time, self.opened.time)),
            Packer::stretch,
        );
        self.flag(life.has_begun);
        self.flag(life.is_silent);
        self.rare(u64::from(life.stall));
        self.rare(u64::from(life.count));
        self.few(life.last as u64, SHARE);
        self.option(Some(one.unshown_nanos).filter(|nanos| *nanos != 0), Packer::signed);
        self.flag(life.spans.is_some());
    }

    pub(super) fn stretch(&mut self, (begin, end): (Nanos, Nanos)) {
        self.time(begin);
        self.signed(end - begin);
    }

    pub(super) fn spans(&mut self, spans: &[Span]) {
        self.number(spans.len() as u64);
        self.time(spans.first().map_or(0, |span| span.begin));
        for span in spans {
            self.signed(span.end - span.begin);
            self.bytes.push(span.share as u8);
        }
    }
}
