//! Frames that are made up (RFC 9113, 6).

use cutter::{flag, kind, PREFACE};

/// Identifiers of SETTINGS (RFC 9113, 6.5.2).
pub const HEADER_TABLE_SIZE: u16 = 1;
pub const INITIAL_WINDOW: u16 = 4;
pub const MAX_FRAME_SIZE: u16 = 5;
/// The largest payload of DATA that is made.
const PIECE: usize = 1 << 14;
/// The largest table that is filled (RFC 7541, 4.1), and entries of a name of one byte without a value.
pub const TABLE: u32 = 1 << 16;
const ENTRY: u32 = 33;

/// What both sides of a connection send, in turn.
#[derive(Default)]
pub struct Script {
    /// The side of each step, and its bytes.
    pub steps: Vec<(usize, Vec<u8>)>,
    /// How many frames each side sends, and how many bytes.
    pub frames: [u32; 2],
    pub bytes: [u32; 2],
    /// Whether frames are counted alone.
    pub is_counted: bool,
}

impl Script {
    fn put(&mut self, side: usize, bytes: &[u8]) {
        if self.is_counted {
            return;
        }
        self.bytes[side] += bytes.len() as u32;
        match self.steps.last_mut() {
            Some((last, all)) if *last == side => all.extend_from_slice(bytes),
            _ => self.steps.push((side, bytes.to_vec())),
        }
    }

    fn frame(&mut self, side: usize, (kind, flags): (u8, u8), stream: u32, payload: &[u8]) {
        let length = (payload.len() as u32).to_be_bytes();
        let [a, b, c, d] = stream.to_be_bytes();
        self.put(side, &[length[1], length[2], length[3], kind, flags, a, b, c, d]);
        self.put(side, payload);
        self.frames[side] += 1;
    }

    pub fn preface(&mut self, side: usize) {
        self.put(side, PREFACE);
    }

    pub fn settings(&mut self, side: usize, pairs: &[(u16, u32)]) {
        let payload: Vec<u8> = pairs
            .iter()
            .flat_map(|(identifier, value)| [&identifier.to_be_bytes()[..], &value.to_be_bytes()].concat())
            .collect();
        self.frame(side, (kind::SETTINGS, 0), 0, &payload);
    }

    pub fn acknowledge(&mut self, side: usize) {
        self.frame(side, (kind::SETTINGS, flag::ACK), 0, &[]);
    }

    pub fn ping(&mut self, side: usize) {
        self.frame(side, (kind::PING, 0), 0, &[0; 8]);
    }

    pub fn headers(&mut self, side: usize, stream: u32, block: &[u8]) {
        self.frame(side, (kind::HEADERS, flag::END_HEADERS), stream, block);
    }

    pub fn promise(&mut self, side: usize, stream: u32, promised: u32) {
        self.frame(side, (kind::PUSH_PROMISE, flag::END_HEADERS), stream, &promised.to_be_bytes());
    }

    /// Writes a grant of any size, in as many frames as it takes.
    pub fn grant(&mut self, side: usize, stream: u32, amount: i64) {
        let mut rest = amount;
        while rest > 0 {
            let part = rest.min((1 << 31) - 1);
            self.frame(side, (kind::WINDOW_UPDATE, 0), stream, &(part as u32).to_be_bytes());
            rest -= part;
        }
    }

    /// Writes content of so many zeros.
    pub fn content(&mut self, side: usize, stream: u32, amount: i64) {
        let mut rest = usize::try_from(amount).unwrap_or(0);
        while rest > 0 {
            let part = rest.min(PIECE);
            self.frame(side, (kind::DATA, 0), stream, &[0; PIECE][..part]);
            rest -= part;
        }
    }

    pub fn end(&mut self, side: usize, stream: u32) {
        self.frame(side, (kind::DATA, flag::END_STREAM), stream, &[]);
    }
}

/// A field block that fills a dynamic table (RFC 7541, 6.2.1, 6.3): whatever an encoder refers to by its distance from
/// the newest entry is there, under a name that nobody asks for.
pub fn placeholders() -> Vec<u8> {
    let size_of_table = [0x3f, 0xe1, 0xff, 0x03];
    let entry = [0x40, 1, b'-', 0];
    [&size_of_table[..], &entry.repeat((TABLE / ENTRY) as usize)].concat()
}

#[cfg(test)]
mod tests {
    use super::*;

    #[test]
    fn a_table_of_placeholders() {
        let mut decoder = hpack::Decoder::new();
        decoder.allow_table(TABLE);
        decoder.decode(&placeholders()).expect("fields");
        assert_eq!(decoder.table(), (1985, 65_505));
        assert!(decoder.decode(b"\xff\xff\x0e\x82").is_ok(), "a far entry");
    }

    #[test]
    fn steps_join() {
        let mut script = Script::default();
        script.preface(0);
        script.settings(0, &[(4, 5)]);
        script.acknowledge(1);
        script.content(1, 1, 16_385);
        script.grant(0, 0, 1 << 31);
        assert_eq!((script.steps.len(), script.frames), (3, [3, 3]));
        assert_eq!(script.bytes, [24 + 15 + 26, 9 + 18 + 16_385]);
        assert_eq!(script.steps[0].1[24..], [0, 0, 6, 4, 0, 0, 0, 0, 0, 0, 4, 0, 0, 0, 5]);
    }
}
