//! The segments of a connection in the clear behind a preamble, which is left out of the capture that is made: so the
//! numbers of what follows it are smaller by its length.

use captures::{flags, offset_of, Segment, END_OF_OFFSETS};

use crate::listener::Written;

const SEQUENCE: usize = 4;
const ACKNOWLEDGEMENT: usize = 8;
const CHECKSUM: usize = 16;

pub struct Shift {
    lengths: [u32; 2],
}

impl Shift {
    pub fn new(lengths: [u32; 2]) -> Shift {
        Shift { lengths }
    }

    /// A segment without what of it belongs to the preamble; there is room for its headers. Its checksum is left out.
    pub fn written<'a>(
        &self,
        side: usize,
        segment: &'a Segment<'_>,
        initial: &[Option<u32>; 2],
        headers: &'a mut Vec<u8>,
    ) -> Written<'a> {
        let Segment { flags, start, end, original, .. } = *segment;
        let (sequence, cut) = match initial[side] {
            Some(initial) => shifted(segment, initial, self.lengths[side]),
            None => (segment.sequence, 0),
        };
        let other = 1 - side;
        let answer = match initial[other] {
            Some(initial) if flags & flags::ACK != 0 => less(segment.acknowledgement, initial, self.lengths[other]),
            _ => segment.acknowledgement,
        };
        segment.headers().iter().for_each(|part| headers.extend_from_slice(part));
        let tcp = segment.tcp;
        headers[tcp + SEQUENCE..tcp + SEQUENCE + 4].copy_from_slice(&sequence.to_be_bytes());
        headers[tcp + ACKNOWLEDGEMENT..tcp + ACKNOWLEDGEMENT + 4].copy_from_slice(&answer.to_be_bytes());
        headers[tcp + CHECKSUM..tcp + CHECKSUM + 2].fill(0);
        let said = usize::from(u16::from_be_bytes([headers[2], headers[3]]));
        if said > 0 && cut > 0 {
            headers[2..4].copy_from_slice(&((said - cut) as u16).to_be_bytes());
        }
        let parts = [&headers[..], &segment.payload()[cut..]];
        let original = original.saturating_sub(cut as u32);
        Written { sequence, flags, parts, start, end: end - cut, original, is_whole: false }
    }
}

/// The number of a segment behind a preamble of this length, and how many bytes of its payload belong to that.
fn shifted(segment: &Segment<'_>, initial: u32, length: u32) -> (u32, usize) {
    let syn = u32::from(segment.flags & flags::SYN != 0);
    let offset = offset_of(initial, segment.sequence, segment.flags);
    if offset >= END_OF_OFFSETS {
        return (segment.sequence, 0);
    }
    let cut = (length.saturating_sub(offset) as usize).min(segment.payload().len());
    let behind = (offset + cut as u32).saturating_sub(length);
    (initial.wrapping_add(1).wrapping_add(behind).wrapping_sub(syn), cut)
}

/// An acknowledgement without the preamble.
fn less(answer: u32, initial: u32, length: u32) -> u32 {
    let offset = answer.wrapping_sub(initial).wrapping_sub(1);
    if offset >= END_OF_OFFSETS {
        return answer;
    }
    answer.wrapping_sub(length.min(offset))
}
