//! The records of a beginning: segments of IPv4 and TCP whose numbers end where the unaltered bytes go on.

use captures::{flags, made_headers, swapped, Ends, MADE_HEADERS};

use crate::frames::Script;

/// So many bytes stand in a segment.
const PIECE: usize = 1 << 15;
const PUSH: u8 = 8;

/// A segment that is made up, in its datagram.
#[derive(Clone, Debug, PartialEq, Eq)]
pub struct Made {
    /// 0 is the client.
    pub side: usize,
    pub datagram: Vec<u8>,
}

impl Made {
    /// The number of the segment.
    pub fn sequence(&self) -> u32 {
        u32::from_be_bytes([self.datagram[24], self.datagram[25], self.datagram[26], self.datagram[27]])
    }
}

/// The ends of what the client sends, and the next number of each side.
#[derive(Clone, Copy, Debug)]
pub struct Numbers {
    pub ends: Ends,
    pub next: [u32; 2],
}

impl Numbers {
    /// A SYN, and the SYN ACK that answers it, behind which both sides have sent nothing.
    pub fn handshake(&self, has_answer: bool) -> Vec<Made> {
        let before = self.next.map(|next| next.wrapping_sub(1));
        let mut made = vec![self.made(0, [before[0], 0], flags::SYN, &[])];
        if has_answer {
            made.push(self.made(1, [before[1], self.next[0]], flags::SYN | flags::ACK, &[]));
        }
        made
    }

    fn made(&self, side: usize, [sequence, acknowledgement]: [u32; 2], flags: u8, payload: &[u8]) -> Made {
        let ends = if side == 0 { self.ends } else { swapped(&self.ends) };
        let mut datagram = Vec::with_capacity(MADE_HEADERS + payload.len());
        datagram.extend_from_slice(&made_headers(&ends, [sequence, acknowledgement], flags, payload.len()));
        datagram.extend_from_slice(payload);
        Made { side, datagram }
    }
}

/// A handshake, and what a script says, which ends at these numbers.
pub fn records_of(script: &Script, end: &Numbers) -> Vec<Made> {
    let begin = [0, 1].map(|side: usize| end.next[side].wrapping_sub(script.bytes[side]));
    let mut numbers = Numbers { ends: end.ends, next: begin };
    let mut made = numbers.handshake(true);
    for (side, bytes) in &script.steps {
        for piece in bytes.chunks(PIECE) {
            let at = [numbers.next[*side], numbers.next[1 - *side]];
            made.push(numbers.made(*side, at, flags::ACK | PUSH, piece));
            numbers.next[*side] = numbers.next[*side].wrapping_add(piece.len() as u32);
        }
    }
    made
}

#[cfg(test)]
mod tests {
    use super::*;

    #[test]
    fn numbers_end_where_they_shall() {
        let mut script = Script::default();
        script.preface(0);
        script.content(1, 1, 40_000);
        script.acknowledge(0);
        let ends = [1, 2, 3, 4, 5, 6, 7, 8, 9, 10, 11, 12];
        let made = records_of(&script, &Numbers { ends, next: [10, 1 << 31] });
        let mut decoder = captures::Decoder::default();
        let mut seen = Vec::new();
        for one in &made {
            let original = one.datagram.len() as u32;
            let packet = captures::Packet { nanos: 0, link: Some(captures::RAW), data: &one.datagram, original };
            let segment = decoder.segment(&packet).ok().and_then(Result::ok).expect("a segment");
            assert_eq!(segment.ends, if one.side == 0 { ends } else { swapped(&ends) });
            seen.push((one.side, segment.sequence, segment.flags, segment.payload().len()));
        }
        let wanted = [
            (0, u32::MAX - 23, 2, 0),
            (1, (1 << 31) - 40_028, 18, 0),
            (0, u32::MAX - 22, 24, 24),
            (1, (1 << 31) - 40_027, 24, 32_768),
            (1, (1 << 31) - 40_027 + 32_768, 24, 40_027 - 32_768),
            (0, 1, 24, 9),
        ];
        assert_eq!(seen, wanted);
    }
}
