//! Streams that are over, each in some sixty bytes: bits that tell what there is, and numbers, seven bits a byte; times
//! and places beside others before.

mod packer;
mod row;
mod unpacker;

use crate::answer::{At, Nanos};
use crate::stream::Stream;
use packer::Packer;
pub use row::Row;
use unpacker::Unpacker;

const NOWHERE: At = At { packet: 0, time: 0, frame: 0 };
/// How many bytes hold the bits of an outline, of a direction, of its life, and of what stands in a row; and how many
/// the length of both lives with their spans, which are in front.
const OUTLINE: usize = 4;
const DIRECTION: usize = 3;
const LIFE: usize = 3;
const IN_ROW: usize = 1;
const LENGTH: usize = 2;
/// How a place is told, in so many bits: none, as the last one before, as the stream's opening, or in full.
const PLACE: u32 = 2;
const NONE: u64 = 0;
const AS_LAST: u64 = 1;
const AS_OPENED: u64 = 2;
const IN_FULL: u64 = 3;
/// One bit for each share, and bits for the number of one.
const SHARES: u32 = 8;
const SHARE: u32 = 3;

/// Adds a stream to some bytes.
pub fn pack(stream: &Stream, bytes: &mut Vec<u8>) {
    let begin = bytes.len();
    bytes.extend_from_slice(&[0; LENGTH]);
    let mut packer = Packer { opened: stream.opened, ..Packer::new(bytes, NOWHERE) };
    stream.sides.iter().for_each(|side| packer.with_bits::<LIFE>(|packer| packer.life(side)));
    stream.sides.iter().flat_map(|side| &side.life.spans).for_each(|spans| packer.spans(spans));
    let length = (packer.bytes.len() - begin - LENGTH) as u16;
    packer.bytes[begin..begin + LENGTH].copy_from_slice(&length.to_le_bytes());
    packer.with_bits::<OUTLINE>(|packer| packer.outline(stream));
    stream.sides.iter().for_each(|side| packer.with_bits::<DIRECTION>(|packer| packer.direction(side)));
}

/// Reads the stream that begins here into the place of another one; without its spans, if they are not wanted.
pub fn unpack(bytes: &[u8], round_trip: Nanos, has_spans: bool, stream: &mut Stream) {
    let mut unpacker = unpacked_outline(bytes, stream);
    stream.sides.iter_mut().for_each(|one| unpacker.direction(round_trip, one));
    unpack_lives(bytes, stream.opened.time, has_spans, stream);
}

/// Reads a stream of which no cause is sought, without what only causes need, where both its lives are divided up to
/// their ends.
pub fn unpack_uncaused(bytes: &[u8], round_trip: Nanos, stream: &mut Stream) {
    let mut unpacker = unpacked_outline(bytes, stream);
    unpack_lives(bytes, stream.opened.time, true, stream);
    if !stream.sides.iter().all(|one| one.end.is_some() && one.life.at == one.life.until) {
        stream.sides.iter_mut().for_each(|one| unpacker.direction(round_trip, one));
    }
}

/// Reads of one that was opened at some time the lives of both directions, and nothing else.
pub fn unpack_lives(bytes: &[u8], opened: Nanos, has_spans: bool, stream: &mut Stream) {
    let opened = At { time: opened, ..NOWHERE };
    let mut unpacker = Unpacker { opened, ..Unpacker::new(parted(bytes).0, NOWHERE) };
    unpacker.lives(has_spans, stream);
}

/// Both lives, and what stands behind them.
fn parted(bytes: &[u8]) -> (&[u8], &[u8]) {
    let (length, rest) = bytes.split_at(bytes.len().min(LENGTH));
    let length = length.try_into().map_or(0, u16::from_le_bytes);
    rest.split_at(rest.len().min(length.into()))
}

/// Reads of it what was asked and answered, how much content each side sent, and its first, its last, and its end.
pub fn unpack_outline(bytes: &[u8], stream: &mut Stream) {
    unpacked_outline(bytes, stream);
}

fn unpacked_outline<'a>(bytes: &'a [u8], stream: &mut Stream) -> Unpacker<'a> {
    let mut unpacker = Unpacker::new(parted(bytes).1, NOWHERE);
    unpacker.take_bits::<OUTLINE>();
    unpacker.outline(stream);
    unpacker
}

#[cfg(test)]
mod tests;
