//! Strings in Huffman code (RFC 7541, 5.2 and appendix B).

/// How many bits the code of each symbol has: of all bytes, and of the end, which no string has.
const LENGTHS: [u8; 257] = [
    13, 23, 28, 28, 28, 28, 28, 28, 28, 24, 30, 28, 28, 30, 28, 28, // 0
    28, 28, 28, 28, 28, 28, 30, 28, 28, 28, 28, 28, 28, 28, 28, 28, // 16
    6, 10, 10, 12, 13, 6, 8, 11, 10, 10, 8, 11, 8, 6, 6, 6, // 32
    5, 5, 5, 6, 6, 6, 6, 6, 6, 6, 7, 8, 15, 6, 12, 10, // 48
    13, 6, 7, 7, 7, 7, 7, 7, 7, 7, 7, 7, 7, 7, 7, 7, // 64
    7, 7, 7, 7, 7, 7, 7, 7, 8, 7, 8, 13, 19, 13, 14, 6, // 80
    15, 5, 6, 5, 6, 5, 6, 6, 6, 5, 7, 7, 6, 6, 6, 5, // 96
    6, 7, 6, 5, 5, 6, 7, 7, 7, 7, 7, 15, 11, 14, 13, 28, // 112
    20, 22, 20, 20, 22, 22, 22, 23, 22, 23, 23, 23, 23, 23, 24, 23, // 128
    24, 24, 22, 23, 24, 23, 23, 23, 23, 21, 22, 23, 22, 23, 23, 24, // 144
    22, 21, 20, 22, 22, 23, 23, 21, 23, 22, 22, 24, 21, 22, 23, 23, // 160
    21, 21, 22, 21, 23, 22, 23, 23, 20, 22, 22, 22, 23, 22, 22, 23, // 176
    26, 26, 20, 19, 22, 23, 22, 25, 26, 26, 26, 27, 27, 26, 24, 25, // 192
    19, 21, 26, 27, 27, 26, 27, 24, 21, 21, 26, 26, 28, 27, 27, 27, // 208
    20, 24, 20, 21, 22, 21, 21, 23, 22, 22, 25, 25, 24, 24, 26, 23, // 224
    26, 27, 26, 26, 27, 27, 27, 27, 27, 28, 27, 27, 27, 27, 27, 26, // 240
    30, // 256
];
const SHORTEST: u8 = 5;
const LONGEST: u8 = 30;

/// Symbols in the order of their codes: shorter codes come first, and those of one length by their symbols. So each
/// code follows from the lengths.
const IN_ORDER: [u16; 257] = {
    let mut symbols = [0; 257];
    let (mut count, mut length) = (0, SHORTEST);
    while length <= LONGEST {
        let mut symbol = 0;
        while symbol < 257 {
            if LENGTHS[symbol] == length {
                symbols[count] = symbol as u16;
                count += 1;
            }
            symbol += 1;
        }
        length += 1;
    }
    symbols
};

/// Codes of one length, all of them as they stand at the front of 30 bits.
#[derive(Clone, Copy)]
struct Range {
    begin: u32,
    end: u32,
    /// The place of the first in `IN_ORDER`.
    place: usize,
}

static RANGES: [Range; (LONGEST - SHORTEST + 1) as usize] = {
    let mut ranges = [Range { begin: 0, end: 0, place: 0 }; (LONGEST - SHORTEST + 1) as usize];
    let (mut place, mut code, mut row) = (0, 0, 0);
    while row < ranges.len() {
        ranges[row].begin = code;
        ranges[row].place = place;
        while place < 257 && LENGTHS[IN_ORDER[place] as usize] == SHORTEST + row as u8 {
            code += 1 << (LONGEST - SHORTEST - row as u8);
            place += 1;
        }
        ranges[row].end = code;
        row += 1;
    }
    ranges
};

/// What some bits begin with: one symbol or two.
#[derive(Clone, Copy)]
struct Step {
    symbols: [u8; 2],
    count: u8,
    bits: u8,
}

/// So many bits are looked at in one step.
const STEP: u8 = 12;
/// A code that is longer than a step.
const NO_STEP: Step = Step { symbols: [0; 2], count: 0, bits: u8::MAX };

static STEPS: [Step; 1 << STEP] = {
    let mut steps = [NO_STEP; 1 << STEP];
    let (mut at, mut first) = (0, 0);
    while LENGTHS[IN_ORDER[first] as usize] <= STEP {
        let symbol = IN_ORDER[first] as u8;
        let bits = LENGTHS[symbol as usize];
        let end = at + (1 << (STEP - bits));
        let mut second = 0;
        while bits + LENGTHS[IN_ORDER[second] as usize] <= STEP {
            let symbols = [symbol, IN_ORDER[second] as u8];
            let both = bits + LENGTHS[symbols[1] as usize];
            let end = at + (1 << (STEP - both));
            while at < end {
                steps[at] = Step { symbols, count: 2, bits: both };
                at += 1;
            }
            second += 1;
        }
        while at < end {
            steps[at] = Step { symbols: [symbol, 0], count: 1, bits };
            at += 1;
        }
        first += 1;
    }
    steps
};

/// The first symbol of these bits, and how many bits it has.
fn symbol_of(ahead: u64) -> (u16, u32) {
    let code = (ahead >> (64 - LONGEST)) as u32;
    let mut row = 0;
    while code >= RANGES[row].end {
        row += 1;
    }
    let length = u32::from(SHORTEST) + row as u32;
    let place = RANGES[row].place + ((code - RANGES[row].begin) >> (u32::from(LONGEST) - length)) as usize;
    (IN_ORDER[place], length)
}

/// More bytes than a string of so many bytes in Huffman code stands for, and one more, which [`decode`] wants.
pub fn most_decoded(length: usize) -> usize {
    length * 8 / SHORTEST as usize + 2
}

/// Writes what a string stands for as far as there is room, but for the last byte of room, and answers how many bytes
/// that are in all. None if this is no Huffman code: it has the symbol of the end, or is not filled up to a whole byte
/// with the first bits of that.
pub fn decode(string: &[u8], to: &mut [u8]) -> Option<usize> {
    let mut words = string.chunks_exact(4);
    let mut rest = words.remainder().iter();
    // Bits that come next, inverted: so ones, of which the end's code is made, follow the last.
    let (mut inverted, mut held, mut count) = (0_u64, 0_u32, 0);
    loop {
        while held <= 32 {
            if let Some(&[a, b, c, d]) = words.next() {
                inverted |= u64::from(!u32::from_be_bytes([a, b, c, d])) << (32 - held);
                held += 32;
            } else if let Some(last) = rest.next() {
                inverted |= u64::from(!last) << (56 - held);
                held += 8;
            } else {
                break;
            }
        }
        let step = STEPS[(!inverted >> (64 - STEP)) as usize];
        let (symbols, bits, symbol_count) = if u32::from(step.bits) <= held {
            (step.symbols, u32::from(step.bits), usize::from(step.count))
        } else if held < 8 && inverted == 0 {
            return Some(count);
        } else {
            let (symbol, bits) = symbol_of(!inverted);
            if bits > held {
                return None;
            }
            ([u8::try_from(symbol).ok()?, 0], bits, 1)
        };
        if let Some(place) = to.get_mut(count..count + 2) {
            place.copy_from_slice(&symbols);
        }
        inverted <<= bits;
        held -= bits;
        count += symbol_count;
    }
}

#[cfg(test)]
mod tests {
    use super::*;

    fn decoded(string: &[u8]) -> Option<Vec<u8>> {
        let mut room = vec![0; most_decoded(string.len())];
        let count = decode(string, &mut room)?;
        assert_eq!(decode(string, &mut []), Some(count));
        Some(room[..count].to_vec())
    }

    /// Codes of appendix B as they stand there: the first and the last of some lengths.
    #[test]
    fn codes() {
        let codes = [
            (b'0', 5, 0x0),
            (b't', 5, 0x9),
            (b' ', 6, 0x14),
            (b'u', 6, 0x2d),
            (b'z', 7, 0x7b),
            (b'Z', 8, 0xfd),
            (b'!', 10, 0x3f8),
            (b'>', 12, 0xffb),
            (0, 13, 0x1ff8),
            (b'\\', 19, 0x7fff0),
            (1, 23, 0x7fffd8),
            (249, 28, 0xffffffe),
            (b'\n', 30, 0x3ffffffc),
            (22, 30, 0x3ffffffe),
        ];
        for (symbol, bits, code) in codes {
            assert_eq!(symbol_of(!0 ^ (!code & ((1 << bits) - 1)) << (64 - bits)), (symbol.into(), bits));
            let string = (!0 ^ (!code & ((1 << bits) - 1)) << (64 - bits)).to_be_bytes();
            assert_eq!(decoded(&string[..(bits as usize + 7) / 8]), Some(vec![symbol]), "{symbol}");
        }
        assert_eq!(symbol_of(!0), (256, 30));
    }

    #[test]
    fn ends() {
        assert_eq!(decoded(b""), Some(vec![]));
        // An `o`, whose code is 00111, and an `a` of 00011 beside it.
        assert_eq!(decoded(b"\x3f"), Some(b"o".to_vec()));
        assert_eq!(decoded(b"\x38\xff"), Some(b"oa".to_vec()));
        // Filled up with eight bits, and with what is not the front of the end.
        assert_eq!(decoded(b"\x3f\xff"), None);
        assert_eq!(decoded(b"\xff"), None);
        assert_eq!(decoded(b"\x3e"), None);
        assert_eq!(decoded(b"\x38"), None);
        // The end itself.
        assert_eq!(decoded(b"\xff\xff\xff\xff"), None);
        assert_eq!(decoded(b"\xff\xff\xff\xff\xff\xff\xff\xff"), None);
    }

    /// What there is no room for is counted.
    #[test]
    fn little_room() {
        let mut room = [b'-'; 4];
        assert_eq!(decode(b"\x39\xce\x73\x9c\xff", &mut room), Some(7));
        assert_eq!(&room, b"oooo");
        assert_eq!(decode(b"\x1c\x7f", &mut room[..3]), Some(2));
        assert_eq!(&room, b"aboo");
    }
}
