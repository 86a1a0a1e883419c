//! Bytes of the key stream of ChaCha20 (RFC 8439, 2.3) for many nonces of a key, for the filter of a search. It trusts
//! nothing to this: what passes has to prove its tag to OpenSSL, which has no call for many nonces at once, and takes
//! three times as long for one after the other.

use std::array::from_fn;

/// So many are made side by side, for the compiler to use wide registers.
const LANES: usize = 16;
const DOUBLE_ROUNDS: usize = 10;
const CONSTANTS: [u32; 4] = [0x6170_7865, 0x3320_646e, 0x7962_2d32, 0x6b20_6574];
const BLOCK: usize = 64;
const WORD: usize = 4;

type Lanes = [u32; LANES];

/// A key, and which byte of which block of its key stream is made.
pub struct KeyStream {
    state: [u32; 16],
    word: usize,
    shift: u32,
}

impl KeyStream {
    /// The stream of a key of 32 bytes, from an offset of the content on, which begins with block 1 (RFC 8439, 2.8).
    pub fn new(key: &[u8], offset: usize) -> KeyStream {
        let mut state = [0; 16];
        state[..4].copy_from_slice(&CONSTANTS);
        for (word, bytes) in state[4..12].iter_mut().zip(key.chunks_exact(WORD)) {
            *word = word_of(bytes);
        }
        state[12] = 1 + (offset / BLOCK) as u32;
        KeyStream { state, word: offset % BLOCK / WORD, shift: 8 * (offset % WORD) as u32 }
    }

    /// Makes the byte for each of these nonces.
    pub fn bytes(&self, nonces: &[[u8; 12]], made: &mut Vec<u8>) {
        made.clear();
        for some in nonces.chunks(LANES) {
            let mut words = [[0; LANES]; 3];
            for (lane, nonce) in some.iter().enumerate() {
                for (lanes, bytes) in words.iter_mut().zip(nonce.chunks_exact(WORD)) {
                    lanes[lane] = word_of(bytes);
                }
            }
            let words = self.words(words);
            made.extend(words[..some.len()].iter().map(|word| (word >> self.shift) as u8));
        }
    }

    /// The word that has the byte.
    fn words(&self, nonces: [Lanes; 3]) -> Lanes {
        let [row, column] = [self.word / 4, self.word % 4];
        let mut rows: [[Lanes; 4]; 4] = from_fn(|row| from_fn(|column| [self.state[4 * row + column]; LANES]));
        rows[3][1..].copy_from_slice(&nonces);
        let first = rows[row][column];
        let [a, b, c, d] = &mut rows;
        for _ in 0..DOUBLE_ROUNDS {
            for at in 0..4 {
                quarter_round(&mut a[at], &mut b[at], &mut c[at], &mut d[at]);
            }
            for at in 0..4 {
                quarter_round(&mut a[at], &mut b[(at + 1) % 4], &mut c[(at + 2) % 4], &mut d[(at + 3) % 4]);
            }
        }
        let last = rows[row][column];
        from_fn(|lane| last[lane].wrapping_add(first[lane]))
    }
}

fn word_of(bytes: &[u8]) -> u32 {
    bytes.iter().rev().fold(0, |word, byte| word << 8 | u32::from(*byte))
}

fn quarter_round(a: &mut Lanes, b: &mut Lanes, c: &mut Lanes, d: &mut Lanes) {
    for (((a, b), c), d) in a.iter_mut().zip(b).zip(c).zip(d) {
        for [by, then_by] in [[16, 12], [8, 7]] {
            *a = a.wrapping_add(*b);
            *d = (*d ^ *a).rotate_left(by);
            *c = c.wrapping_add(*d);
            *b = (*b ^ *c).rotate_left(then_by);
        }
    }
}

#[cfg(test)]
mod tests {
    use super::*;

    /// The key stream of RFC 8439, 2.4.2 (counter 1 and 2), which its ciphertext and plaintext give.
    #[test]
    fn example_of_the_rfc() {
        let key: Vec<u8> = (0..32).collect();
        let nonce = [0, 0, 0, 0, 0, 0, 0, 0x4a, 0, 0, 0, 0];
        let wanted = [(0, 0x22), (1, 0x4f), (2, 0x51), (3, 0xf3), (63, 0xb7), (64, 0x69), (113, 0x63)];
        for (offset, byte) in wanted {
            let mut made = Vec::new();
            KeyStream::new(&key, offset).bytes(&[nonce, [7; 12], nonce, nonce, nonce], &mut made);
            assert_eq!(made.len(), 5);
            assert_eq!((made[0], made[2], made[4]), (byte, byte, byte), "{offset}");
            assert_ne!(made[1], byte);
        }
    }
}
