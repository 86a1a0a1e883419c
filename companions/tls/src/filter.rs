//! Which record numbers may open a record with a key, told from one block of the key stream.
//!
//! The last byte of the plaintext is the type of the content, or padding (RFC 8446, 5.2): four values of 256. The block
//! that covers it is made for thousands of numbers at once, and for those that pass, that of a neighbour. So one in
//! 4,096 has to prove its tag.

use openssl::cipher_ctx::CipherCtx;
use openssl::error::ErrorStack;

use crate::chacha20::KeyStream;
use crate::key_schedule::{TrafficKeys, NONCE_LENGTH};
use crate::protection::{fetched, numbered};
use crate::records::{ALERT, APPLICATION_DATA, HANDSHAKE};
use crate::suites::{CipherKind, Mode, Suite};

const BLOCK: usize = 16;
/// So many numbers are tried at once.
pub const MOST_AT_ONCE: usize = 1 << 12;

/// The last byte of a record's plaintext, as it is encrypted.
struct Last {
    sealed: u8,
    offset: usize,
    /// How much its number is above those that are tried; a neighbour before it has 2^64 - 1.
    ahead: u64,
}

/// The last bytes of a record, and of a neighbour if there is one, for one suite.
pub struct Filter {
    suite: Suite,
    lasts: Vec<Last>,
}

/// What the filter works in.
pub struct Bench {
    context: CipherCtx,
    blocks: Vec<u8>,
    made: Vec<u8>,
    nonces: Vec<[u8; NONCE_LENGTH]>,
    pub numbers: Vec<u64>,
}

impl Filter {
    /// For the bodies of some records, each with how much its number is above those that are tried; none where one is
    /// too short for the suite.
    pub fn new(suite: &Suite, bodies: &[(&[u8], u64)]) -> Option<Filter> {
        let last = |&(body, ahead): &(&[u8], u64)| {
            let offset = body.len().checked_sub(suite.tag_length() + 1)?;
            Some(Last { sealed: body[offset], offset, ahead })
        };
        Some(Filter { suite: *suite, lasts: bodies.iter().map(last).collect::<Option<_>>()? })
    }

    /// Leaves in `bench.numbers` those that pass.
    pub fn keep(&self, bench: &mut Bench, keys: &TrafficKeys) -> Result<(), ErrorStack> {
        for last in &self.lasts {
            if bench.numbers.is_empty() {
                break;
            }
            if self.suite.cipher == CipherKind::ChaCha20 {
                bench.keep_by_chacha20(last, keys);
            } else {
                bench.keep_by_aes(&self.suite, last, keys)?;
            }
        }
        Ok(())
    }
}

impl Bench {
    pub fn new() -> Result<Bench, ErrorStack> {
        Ok(Bench {
            context: CipherCtx::new()?,
            blocks: Vec::new(),
            made: Vec::new(),
            nonces: Vec::new(),
            numbers: Vec::new(),
        })
    }

    /// A block is the nonce behind flags in CCM (RFC 3610, 2.3), and the counter: that of the content begins with 2 in
    /// GCM (NIST SP 800-38D, 7.1) and 1 in CCM.
    fn keep_by_aes(&mut self, suite: &Suite, last: &Last, keys: &TrafficKeys) -> Result<(), ErrorStack> {
        let count = (last.offset / BLOCK) as u32;
        let (flags, counter) = match suite.mode {
            Mode::Gcm => (&[][..], (count + 2).to_be_bytes().to_vec()),
            _ => (&[2][..], (count + 1).to_be_bytes()[1..].to_vec()),
        };
        let parts = [flags, &keys.iv, &counter].concat();
        let base = parts.iter().fold(0, |base, byte| base << 8 | u128::from(*byte));
        let shift = 8 * counter.len() as u32;
        self.blocks.resize(BLOCK * self.numbers.len(), 0);
        for (block, number) in self.blocks.chunks_exact_mut(BLOCK).zip(&self.numbers) {
            let numbered = base ^ u128::from(number.wrapping_add(last.ahead)) << shift;
            block.copy_from_slice(&numbered.to_be_bytes());
        }
        self.made.resize(self.blocks.len() + BLOCK, 0);
        let cipher = fetched(if suite.key_length == 32 { "AES-256-ECB" } else { "AES-128-ECB" })?;
        self.context.encrypt_init(Some(&cipher), Some(&keys.key), None)?;
        self.context.set_padding(false);
        self.context.cipher_update(&self.blocks, Some(&mut self.made))?;
        let mut made = self.made.chunks_exact(BLOCK).map(|block| block[last.offset % BLOCK]);
        self.numbers.retain(|_| made.next().map_or(false, |byte| is_type(byte ^ last.sealed)));
        Ok(())
    }

    fn keep_by_chacha20(&mut self, last: &Last, keys: &TrafficKeys) {
        let mut iv = [0; NONCE_LENGTH];
        iv.copy_from_slice(&keys.iv);
        self.nonces.clear();
        self.nonces.extend(self.numbers.iter().map(|number| numbered(&iv, number.wrapping_add(last.ahead))));
        KeyStream::new(&keys.key, last.offset).bytes(&self.nonces, &mut self.made);
        let mut made = self.made.iter();
        self.numbers.retain(|_| made.next().map_or(false, |byte| is_type(byte ^ last.sealed)));
    }
}

/// Whether a plaintext may end so: with the type of what TLS 1.3 protects, or with padding.
fn is_type(byte: u8) -> bool {
    matches!(byte, 0 | ALERT | HANDSHAKE | APPLICATION_DATA)
}

#[cfg(test)]
mod tests {
    use super::*;
    use crate::key_schedule::traffic_keys;
    use crate::records::HEADER_LENGTH;
    use crate::sealing::{Sealer, CODES};

    /// The number of a record passes for each length, and few others do.
    #[test]
    fn few_others_pass() {
        for code in CODES {
            let mut passed = 0;
            for length in 0..150 {
                let mut sealer = Sealer { number: 1000 + length, ..Sealer::new(code, 7) };
                let keys = traffic_keys(&sealer.suite, &sealer.secret);
                let content = vec![b'a'; length as usize];
                let (record, next) = (sealer.data(&content), sealer.data(b"next"));
                let mut bench = Bench::new().unwrap();
                let mut kept = |bodies: &[(&[u8], u64)]| {
                    bench.numbers = (900..900 + MOST_AT_ONCE as u64).collect();
                    Filter::new(&sealer.suite, bodies).unwrap().keep(&mut bench, &keys).unwrap();
                    assert!(bench.numbers.contains(&(1000 + length)), "{code:x} {length}");
                    bench.numbers.len()
                };
                let (record, next) = (&record[HEADER_LENGTH..], &next[HEADER_LENGTH..]);
                let alone = kept(&[(record, 0)]);
                assert!((20..150).contains(&alone), "{code:x} {length} {alone}");
                passed += kept(&[(record, 0), (next, 1)]);
            }
            assert!(passed < 3 * 150, "{code:x} {passed}");
        }
    }

    #[test]
    fn too_short_for_a_suite() {
        let filter = |code, length| Filter::new(&Sealer::new(code, 7).suite, &[(&vec![0; length][..], 0)]).is_some();
        assert_eq!([16, 17].map(|length| filter(0x1301, length)), [false, true]);
        assert_eq!([8, 9].map(|length| filter(0x1305, length)), [false, true]);
    }
}
