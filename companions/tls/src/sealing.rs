//! Records for tests, sealed by OpenSSL.

use openssl::cipher::Cipher;
use openssl::cipher_ctx::CipherCtx;

use crate::key_schedule::{next_secret, traffic_keys, TrafficKeys};
use crate::protection::numbered;
use crate::records::{APPLICATION_DATA, HANDSHAKE};
use crate::suites::{suite_of, Mode, Suite};

pub const CODES: [u16; 5] = [0x1301, 0x1302, 0x1303, 0x1304, 0x1305];

/// Makes the records of one side, one after the other.
#[derive(Clone)]
pub struct Sealer {
    pub suite: Suite,
    pub secret: Vec<u8>,
    pub number: u64,
}

impl Sealer {
    /// Seals by a secret that is this byte again and again.
    pub fn new(code: u16, byte: u8) -> Sealer {
        let suite = suite_of(code).unwrap();
        Sealer { secret: vec![byte; suite.hash.length()], suite, number: 0 }
    }

    pub fn data(&mut self, content: &[u8]) -> Vec<u8> {
        self.record(content, APPLICATION_DATA, 0)
    }

    /// A key update, and the keys behind it.
    pub fn update(&mut self) -> Vec<u8> {
        let record = self.record(&[24, 0, 0, 1, 0], HANDSHAKE, 0);
        self.skip_to_update();
        record
    }

    pub fn skip_to_update(&mut self) {
        (self.secret, self.number) = (next_secret(&self.suite, &self.secret), 0);
    }

    pub fn record(&mut self, content: &[u8], kind: u8, padding: usize) -> Vec<u8> {
        let plain = [content, &[kind], &vec![0; padding]].concat();
        let length = plain.len() + self.suite.tag_length();
        let header = [APPLICATION_DATA, 3, 3, (length >> 8) as u8, length as u8];
        let sealed = seal(&self.suite, &traffic_keys(&self.suite, &self.secret), self.number, &header, &plain);
        self.number += 1;
        [&header[..], &sealed].concat()
    }
}

fn seal(suite: &Suite, keys: &TrafficKeys, number: u64, header: &[u8], plain: &[u8]) -> Vec<u8> {
    let name = match (suite.mode, suite.key_length) {
        (Mode::Poly1305, _) => "ChaCha20-Poly1305",
        (Mode::Gcm, 32) => "AES-256-GCM",
        (Mode::Gcm, _) => "AES-128-GCM",
        _ => "AES-128-CCM",
    };
    let nonce = numbered(&keys.iv[..].try_into().unwrap(), number);
    let (mut context, cipher) = (CipherCtx::new().unwrap(), Cipher::fetch(None, name, None).unwrap());
    context.encrypt_init(Some(&cipher), None, None).unwrap();
    if name == "AES-128-CCM" {
        context.set_iv_length(nonce.len()).unwrap();
        context.set_tag_length(suite.tag_length()).unwrap();
    }
    context.encrypt_init(None, Some(&keys.key), Some(&nonce)).unwrap();
    if name == "AES-128-CCM" {
        context.set_data_len(plain.len()).unwrap();
    }
    context.cipher_update(header, None).unwrap();
    let mut sealed = Vec::new();
    context.cipher_update_vec(plain, &mut sealed).unwrap();
    context.cipher_final_vec(&mut sealed).unwrap();
    let mut tag = vec![0; suite.tag_length()];
    context.tag(&mut tag).unwrap();
    sealed.extend(tag);
    sealed
}
