//! From secrets to keys: the key schedule of TLS 1.3 (RFC 8446, 7) and the key block of TLS 1.2 (RFC 5246, 5 and 6.3).

use crate::hashes::{Digest, Hash, Hmac};
use crate::suites::{Mode, Suite};

pub const NONCE_LENGTH: usize = 12;

/// What protects the records of one side.
#[derive(Clone, Default)]
pub struct TrafficKeys {
    pub key: Vec<u8>,
    /// The whole nonce in TLS 1.3 and of POLY1305, its first 4 bytes of GCM and CCM in TLS 1.2.
    pub iv: Vec<u8>,
    pub mac_key: Vec<u8>,
}

/// HKDF-Expand-Label with an empty context (RFC 8446, 7.1). No length is above that of the hash, so it is one step of
/// HKDF-Expand (RFC 5869, 2.3).
fn expand_label(secret: &Hmac, label: &[u8], length: usize) -> Digest {
    let front = [0, length as u8, 6 + label.len() as u8];
    secret.of(&[&front, b"tls13 ", label, &[0, 1]])
}

/// Key and IV of a traffic secret (RFC 8446, 7.3).
pub fn traffic_keys(suite: &Suite, secret: &[u8]) -> TrafficKeys {
    let secret = Hmac::new(suite.hash, secret);
    let expanded = |label: &[u8], length: usize| expand_label(&secret, label, length).bytes()[..length].to_vec();
    TrafficKeys { key: expanded(b"key", suite.key_length), iv: expanded(b"iv", NONCE_LENGTH), mac_key: Vec::new() }
}

/// The traffic secret after a KeyUpdate (RFC 8446, 7.2).
pub fn next_secret(suite: &Suite, secret: &[u8]) -> Vec<u8> {
    expand_label(&Hmac::new(suite.hash, secret), b"traffic upd", suite.hash.length()).bytes().to_vec()
}

/// PRF of TLS 1.2, of a seed that its label begins (RFC 5246, 5).
fn pseudo_random(hash: Hash, secret: &[u8], seed: &[u8], length: usize) -> Vec<u8> {
    let keyed = Hmac::new(hash, secret);
    let mut made = Vec::with_capacity(length + hash.length());
    let mut step = keyed.of(&[seed]);
    while made.len() < length {
        made.extend_from_slice(keyed.of(&[step.bytes(), seed]).bytes());
        step = keyed.of(&[step.bytes()]);
    }
    made.truncate(length);
    made
}

/// The keys of client and server in TLS 1.2, in the order of RFC 5246, 6.3. Its CBC suites have no IV in the block.
pub fn key_block(suite: &Suite, master: &[u8], client_random: &[u8], server_random: &[u8]) -> [TrafficKeys; 2] {
    let iv_length = match suite.mode {
        Mode::Gcm | Mode::Ccm | Mode::Ccm8 => 4,
        Mode::Poly1305 => NONCE_LENGTH,
        Mode::Cbc | Mode::Null => 0,
    };
    let lengths = [suite.mac_length(), suite.key_length, iv_length];
    let seed = [b"key expansion", server_random, client_random].concat();
    let block = pseudo_random(suite.hash, master, &seed, 2 * lengths.iter().sum::<usize>());
    let mut rest = &block[..];
    let mut parts = lengths.iter().map(|&length| {
        let (pair, behind) = rest.split_at(2 * length);
        rest = behind;
        [pair[..length].to_vec(), pair[length..].to_vec()]
    });
    let mut next = || parts.next().unwrap_or_default();
    let ([mac, mac_2], [key, key_2], [iv, iv_2]) = (next(), next(), next());
    [TrafficKeys { key, iv, mac_key: mac }, TrafficKeys { key: key_2, iv: iv_2, mac_key: mac_2 }]
}
