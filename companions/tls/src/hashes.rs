//! Hashes, and HMAC (RFC 2104) over them. OpenSSL's own way to an HMAC takes ten times as long to begin one.

use openssl::sha::{Sha1, Sha256, Sha384};

#[derive(Clone, Copy, Debug, PartialEq, Eq)]
pub enum Hash {
    Sha1,
    Sha256,
    Sha384,
}

pub const MOST_BYTES: usize = 48;
const MOST_BLOCK: usize = 128;
const INNER: u8 = 0x36;
const OUTER: u8 = 0x5c;

/// The bytes of a hash.
#[derive(Clone, Copy)]
pub struct Digest {
    bytes: [u8; MOST_BYTES],
    length: usize,
}

impl Digest {
    fn of(found: &[u8]) -> Digest {
        let mut bytes = [0; MOST_BYTES];
        bytes[..found.len()].copy_from_slice(found);
        Digest { bytes, length: found.len() }
    }

    pub fn bytes(&self) -> &[u8] {
        &self.bytes[..self.length]
    }
}

impl Hash {
    pub fn length(self) -> usize {
        match self {
            Hash::Sha1 => 20,
            Hash::Sha256 => 32,
            Hash::Sha384 => 48,
        }
    }

    fn block_length(self) -> usize {
        match self {
            Hash::Sha1 | Hash::Sha256 => 64,
            Hash::Sha384 => 128,
        }
    }
}

#[derive(Clone)]
enum State {
    Sha1(Sha1),
    Sha256(Sha256),
    Sha384(Sha384),
}

impl State {
    fn new(hash: Hash) -> State {
        match hash {
            Hash::Sha1 => State::Sha1(Sha1::new()),
            Hash::Sha256 => State::Sha256(Sha256::new()),
            Hash::Sha384 => State::Sha384(Sha384::new()),
        }
    }

    fn update(&mut self, data: &[u8]) {
        match self {
            State::Sha1(state) => state.update(data),
            State::Sha256(state) => state.update(data),
            State::Sha384(state) => state.update(data),
        }
    }

    fn finish(self) -> Digest {
        match self {
            State::Sha1(state) => Digest::of(&state.finish()),
            State::Sha256(state) => Digest::of(&state.finish()),
            State::Sha384(state) => Digest::of(&state.finish()),
        }
    }
}

/// A hash that a key has begun.
#[derive(Clone)]
pub struct Hmac {
    inner: State,
    outer: State,
}

impl Hmac {
    pub fn new(hash: Hash, key: &[u8]) -> Hmac {
        let mut block = [0; MOST_BLOCK];
        if key.len() > hash.block_length() {
            let mut state = State::new(hash);
            state.update(key);
            block[..hash.length()].copy_from_slice(state.finish().bytes());
        } else {
            block[..key.len()].copy_from_slice(key);
        }
        let begun = |pad: u8| {
            let mut state = State::new(hash);
            state.update(&block.map(|byte| byte ^ pad)[..hash.block_length()]);
            state
        };
        Hmac { inner: begun(INNER), outer: begun(OUTER) }
    }

    pub fn update(&mut self, data: &[u8]) {
        self.inner.update(data);
    }

    pub fn finish(self) -> Digest {
        let mut outer = self.outer;
        outer.update(self.inner.finish().bytes());
        outer.finish()
    }

    /// The digest of all this data together.
    pub fn of(&self, data: &[&[u8]]) -> Digest {
        let mut code = self.clone();
        data.iter().for_each(|part| code.update(part));
        code.finish()
    }
}
