//! Opens protected records. Each verifies its tag or its MAC, and says so where that fails.
//!
//! TLS 1.3: RFC 8446, 5.2. TLS 1.2: RFC 5246, 6.2.3; RFC 5288 (GCM), 6655 (CCM), 7905 (POLY1305), 7366
//! (encrypt-then-MAC).

use std::cell::RefCell;
use std::rc::Rc;

use openssl::cipher::Cipher;
use openssl::cipher_ctx::CipherCtx;
use openssl::error::ErrorStack;

use crate::hashes::{Hash, Hmac};
use crate::key_schedule::{TrafficKeys, NONCE_LENGTH};
use crate::reason::Reason;
use crate::records::Header;
use crate::suites::{CipherKind, Mode, Suite};

const EXPLICIT_NONCE_LENGTH: usize = 8;
/// Room that a cipher of blocks wants behind what it opens.
const MOST_BLOCK: usize = 16;

/// The tag or the MAC is not right, or what is encrypted has no form that it may have.
pub struct DoesNotOpen;

impl From<ErrorStack> for DoesNotOpen {
    fn from(_: ErrorStack) -> DoesNotOpen {
        DoesNotOpen
    }
}

/// Opens the records of one side, one after the other. A record that does not open uses up no number.
pub struct Opener {
    sequence: u64,
    way: Way,
}

enum Way {
    Aead(Aead),
    Blocks(Box<Blocks>),
}

/// How nonce and additional data of an AEAD are built.
#[derive(Clone, Copy, PartialEq)]
enum Nonce {
    /// TLS 1.3: sequence number in the IV, the header as additional data (RFC 8446, 5.2 and 5.3).
    Tls13,
    /// POLY1305 in TLS 1.2: sequence number in the IV (RFC 7905, 2).
    Poly1305,
    /// GCM and CCM in TLS 1.2: the record begins with the later part of it (RFC 5288, 3; RFC 6655, 3).
    Explicit,
}

struct Aead {
    context: CipherCtx,
    nonce: Nonce,
    is_ccm: bool,
    tag_length: usize,
    iv: [u8; NONCE_LENGTH],
}

/// CBC suites, and those without a cipher: a MAC over the content, or over what is encrypted (RFC 7366).
struct Blocks {
    cipher: Option<CipherCtx>,
    mac: Hmac,
    mac_length: usize,
    is_encrypted_first: bool,
}

thread_local! {
    /// Finding a cipher takes longer than opening a small record.
    static FETCHED: RefCell<Vec<(&'static str, Rc<Cipher>)>> = RefCell::default();
}

pub fn fetched(name: &'static str) -> Result<Rc<Cipher>, ErrorStack> {
    FETCHED.with(|fetched| {
        let mut fetched = fetched.borrow_mut();
        if let Some((_, cipher)) = fetched.iter().find(|(known, _)| *known == name) {
            return Ok(cipher.clone());
        }
        let cipher = Rc::new(Cipher::fetch(None, name, None)?);
        fetched.push((name, cipher.clone()));
        Ok(cipher)
    })
}

fn name_of(suite: &Suite) -> &'static str {
    let is_long = suite.key_length == 32;
    match (suite.cipher, suite.mode) {
        (CipherKind::ChaCha20, _) => "ChaCha20-Poly1305",
        (CipherKind::TripleDes, _) => "DES-EDE3-CBC",
        (CipherKind::Camellia, _) if is_long => "CAMELLIA-256-CBC",
        (CipherKind::Camellia, _) => "CAMELLIA-128-CBC",
        (_, Mode::Gcm) if is_long => "AES-256-GCM",
        (_, Mode::Gcm) => "AES-128-GCM",
        (_, Mode::Ccm | Mode::Ccm8) if is_long => "AES-256-CCM",
        (_, Mode::Ccm | Mode::Ccm8) => "AES-128-CCM",
        _ if is_long => "AES-256-CBC",
        _ => "AES-128-CBC",
    }
}

impl Opener {
    pub fn tls_1_3(suite: &Suite, keys: &TrafficKeys) -> Result<Opener, Reason> {
        let aead = Aead::new(suite, keys, Nonce::Tls13).map_err(|_| Reason::CipherSuite(suite.code))?;
        Ok(Opener { sequence: 0, way: Way::Aead(aead) })
    }

    pub fn tls_1_2(suite: &Suite, keys: &TrafficKeys, is_encrypted_first: bool) -> Result<Opener, Reason> {
        let way = match (suite.mac, suite.mode) {
            (Some(mac), _) => {
                Blocks::new(suite, mac, keys, is_encrypted_first).map(|blocks| Way::Blocks(Box::new(blocks)))
            }
            (None, Mode::Poly1305) => Aead::new(suite, keys, Nonce::Poly1305).map(Way::Aead),
            (None, _) => Aead::new(suite, keys, Nonce::Explicit).map(Way::Aead),
        };
        Ok(Opener { sequence: 0, way: way.map_err(|_| Reason::CipherSuite(suite.code))? })
    }

    /// The number of the next record.
    pub fn number(&self) -> u64 {
        self.sequence
    }

    /// Goes on with the record of this number.
    pub fn go_to(&mut self, number: u64) {
        self.sequence = number;
    }

    /// Opens a record, of its header as it stood and the rest of it. The content stands at the front of the room, which
    /// grows as it has to; the answer is its length.
    pub fn open(&mut self, header: &Header, body: &[u8], room: &mut Vec<u8>) -> Result<usize, DoesNotOpen> {
        if room.len() < body.len() + MOST_BLOCK {
            room.resize(body.len() + MOST_BLOCK, 0);
        }
        let length = match &mut self.way {
            Way::Aead(aead) => aead.open(self.sequence, header, body, room)?,
            Way::Blocks(blocks) => blocks.open(self.sequence, header, body, room)?,
        };
        self.sequence += 1;
        Ok(length)
    }
}

impl Aead {
    fn new(suite: &Suite, keys: &TrafficKeys, nonce: Nonce) -> Result<Aead, ErrorStack> {
        let is_ccm = matches!(suite.mode, Mode::Ccm | Mode::Ccm8);
        let mut context = CipherCtx::new()?;
        let cipher = fetched(name_of(suite))?;
        if is_ccm {
            context.decrypt_init(Some(&cipher), None, None)?;
            context.set_iv_length(NONCE_LENGTH)?;
            context.set_tag_length(suite.tag_length())?;
            context.decrypt_init(None, Some(&keys.key), None)?;
        } else {
            context.decrypt_init(Some(&cipher), Some(&keys.key), None)?;
        }
        let mut iv = [0; NONCE_LENGTH];
        iv[..keys.iv.len()].copy_from_slice(&keys.iv);
        Ok(Aead { context, nonce, is_ccm, tag_length: suite.tag_length(), iv })
    }

    fn open(&mut self, sequence: u64, header: &Header, body: &[u8], room: &mut [u8]) -> Result<usize, DoesNotOpen> {
        let mut nonce = self.iv;
        let mut body = body;
        if self.nonce == Nonce::Explicit {
            if body.len() < EXPLICIT_NONCE_LENGTH {
                return Err(DoesNotOpen);
            }
            let (explicit, rest) = body.split_at(EXPLICIT_NONCE_LENGTH);
            nonce[NONCE_LENGTH - EXPLICIT_NONCE_LENGTH..].copy_from_slice(explicit);
            body = rest;
        } else {
            nonce = numbered(&self.iv, sequence);
        }
        let length = body.len().checked_sub(self.tag_length).ok_or(DoesNotOpen)?;
        let (sealed, tag) = body.split_at(length);
        self.context.decrypt_init(None, None, Some(&nonce))?;
        self.context.set_tag(tag)?;
        if self.is_ccm {
            self.context.set_data_len(length)?;
        }
        match self.nonce {
            Nonce::Tls13 => self.context.cipher_update(header, None)?,
            _ => self.context.cipher_update(&additional_data(sequence, header, length), None)?,
        };
        self.context.cipher_update(sealed, Some(room))?;
        if !self.is_ccm {
            self.context.cipher_final(&mut [])?;
        }
        Ok(length)
    }
}

/// The nonce of a record of this number: it stands in the last 8 bytes of the IV (RFC 8446, 5.3; RFC 7905, 2).
#[inline]
pub fn numbered(iv: &[u8; NONCE_LENGTH], number: u64) -> [u8; NONCE_LENGTH] {
    let mut nonce = *iv;
    nonce[NONCE_LENGTH - 8..].iter_mut().zip(number.to_be_bytes()).for_each(|(byte, of_number)| *byte ^= of_number);
    nonce
}

impl Blocks {
    fn new(suite: &Suite, mac: Hash, keys: &TrafficKeys, is_encrypted_first: bool) -> Result<Blocks, ErrorStack> {
        let cipher = if suite.cipher == CipherKind::Null {
            None
        } else {
            let mut context = CipherCtx::new()?;
            let found = fetched(name_of(suite))?;
            context.decrypt_init(Some(&found), Some(&keys.key), None)?;
            Some(context)
        };
        Ok(Blocks {
            mac: Hmac::new(mac, &keys.mac_key),
            mac_length: mac.length(),
            is_encrypted_first: is_encrypted_first && cipher.is_some(),
            cipher,
        })
    }

    fn open(&mut self, sequence: u64, header: &Header, body: &[u8], room: &mut [u8]) -> Result<usize, DoesNotOpen> {
        if self.is_encrypted_first {
            let length = self.verified(sequence, header, body)?;
            return self.decrypt(&body[..length], room);
        }
        let length = self.decrypt(body, room)?;
        self.verified(sequence, header, &room[..length])
    }

    /// How many bytes stand before the MAC, where it is right.
    fn verified(&self, sequence: u64, header: &Header, body: &[u8]) -> Result<usize, DoesNotOpen> {
        let length = body.len().checked_sub(self.mac_length).ok_or(DoesNotOpen)?;
        let wanted = self.mac.of(&[&additional_data(sequence, header, length), &body[..length]]);
        if openssl::memcmp::eq(wanted.bytes(), &body[length..]) {
            Ok(length)
        } else {
            Err(DoesNotOpen)
        }
    }

    /// What the IV at the front and the blocks after it hold, without padding (RFC 5246, 6.2.3.2).
    fn decrypt(&mut self, body: &[u8], room: &mut [u8]) -> Result<usize, DoesNotOpen> {
        let cipher = match &mut self.cipher {
            None => {
                room[..body.len()].copy_from_slice(body);
                return Ok(body.len());
            }
            Some(cipher) => cipher,
        };
        let size = cipher.block_size();
        if body.len() < 2 * size || body.len() % size != 0 {
            return Err(DoesNotOpen);
        }
        cipher.decrypt_init(None, None, Some(&body[..size]))?;
        cipher.set_padding(false);
        let mut length = cipher.cipher_update(&body[size..], Some(room))?;
        length += cipher.cipher_final(&mut room[length..])?;
        let padding = room[..length].last().map_or(0, |last| usize::from(*last) + 1);
        let content = length.checked_sub(padding).ok_or(DoesNotOpen)?;
        if room[content..length].iter().all(|byte| usize::from(*byte) + 1 == padding) {
            Ok(content)
        } else {
            Err(DoesNotOpen)
        }
    }
}

/// Sequence number, type, version, and the length of what is authenticated (RFC 5246, 6.2.3.3).
fn additional_data(sequence: u64, header: &Header, length: usize) -> [u8; 13] {
    let mut data = [0; 13];
    data[..8].copy_from_slice(&sequence.to_be_bytes());
    data[8..11].copy_from_slice(&header[..3]);
    data[11..].copy_from_slice(&(length as u16).to_be_bytes());
    data
}
