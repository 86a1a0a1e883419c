//! Handshake messages that decide which keys a connection has: hellos and EncryptedExtensions (RFC 8446, 4; RFC 5246,
//! 7.4), and the tickets of TLS 1.2 (RFC 5077).

use crate::reason::Reason;

pub const CLIENT_HELLO: u8 = 1;
pub const SERVER_HELLO: u8 = 2;
pub const NEW_SESSION_TICKET: u8 = 4;
pub const END_OF_EARLY_DATA: u8 = 5;
pub const ENCRYPTED_EXTENSIONS: u8 = 8;
pub const SERVER_HELLO_DONE: u8 = 14;
pub const FINISHED: u8 = 20;
pub const KEY_UPDATE: u8 = 24;

pub const TRUNCATED_HMAC: u16 = 4;
const ALPN: u16 = 16;
pub const ENCRYPT_THEN_MAC: u16 = 22;
const SESSION_TICKET: u16 = 35;
pub const EARLY_DATA: u16 = 42;
const SUPPORTED_VERSIONS: u16 = 43;

/// The random of a ServerHello that is a HelloRetryRequest (RFC 8446, 4.1.3).
const RETRY_RANDOM: Random = [
    0xcf, 0x21, 0xad, 0x74, 0xe5, 0x9a, 0x61, 0x11, 0xbe, 0x1d, 0x8c, 0x02, 0x1e, 0x65, 0xb8, 0x91, 0xc2, 0xa2, 0x11,
    0x16, 0x7a, 0xbb, 0x8c, 0x5e, 0x07, 0x9e, 0x09, 0xe2, 0xc8, 0xa8, 0x33, 0x9c,
];
const HEADER_LENGTH: usize = 4;
const LONGEST_MESSAGE: usize = 1 << 20;
/// Where the random of a hello stands, behind its version.
const RANDOM_BEGIN: usize = 2;
const RANDOM_END: usize = 34;

pub type Random = [u8; 32];

/// A message that does not hold what its type has to hold.
const MALFORMED: Reason = Reason::NotTls;

/// What a ClientHello says that matters here.
pub struct ClientHello {
    pub random: Random,
    pub session: Vec<u8>,
    pub ticket: Vec<u8>,
    pub offers_early_data: bool,
}

/// What a ServerHello chose; a HelloRetryRequest is one too.
pub struct ServerHello<'a> {
    pub version: u16,
    pub random: Random,
    pub session: &'a [u8],
    pub suite: u16,
    pub compression: u8,
    pub extensions: Extensions<'a>,
}

impl ServerHello<'_> {
    pub fn is_retry(&self) -> bool {
        self.random == RETRY_RANDOM
    }
}

/// The extensions of a message, of which the first of a code counts.
#[derive(Default)]
pub struct Extensions<'a>(Vec<(u16, &'a [u8])>);

impl<'a> Extensions<'a> {
    pub fn get(&self, code: u16) -> Option<&'a [u8]> {
        self.0.iter().find(|extension| extension.0 == code).map(|extension| extension.1)
    }

    pub fn has(&self, code: u16) -> bool {
        self.get(code).is_some()
    }
}

/// Bytes of a message, which are read from the front on.
struct Rest<'a>(&'a [u8]);

impl<'a> Rest<'a> {
    fn take(&mut self, length: usize) -> Result<&'a [u8], Reason> {
        let found = self.0.get(..length).ok_or(MALFORMED)?;
        self.0 = &self.0[length..];
        Ok(found)
    }

    fn number(&mut self, length: usize) -> Result<usize, Reason> {
        Ok(self.take(length)?.iter().fold(0, |number, byte| number << 8 | usize::from(*byte)))
    }

    /// A vector, which its length stands before (RFC 8446, 3.4).
    fn vector(&mut self, length_bytes: usize) -> Result<&'a [u8], Reason> {
        let length = self.number(length_bytes)?;
        self.take(length)
    }

    /// Extensions at the end of a hello; there may be none at all (RFC 5246, 7.4.1.2).
    fn extensions(&mut self) -> Result<Extensions<'a>, Reason> {
        let mut found = Vec::new();
        if self.0.is_empty() {
            return Ok(Extensions(found));
        }
        let mut rest = Rest(self.vector(2)?);
        while !rest.0.is_empty() {
            let code = rest.number(2)? as u16;
            found.push((code, rest.vector(2)?));
        }
        Ok(Extensions(found))
    }
}

fn random_of(body: &[u8]) -> Result<Random, Reason> {
    let found = body.get(RANDOM_BEGIN..RANDOM_END).and_then(|random| random.try_into().ok());
    found.ok_or(MALFORMED)
}

pub fn client_hello(body: &[u8]) -> Result<ClientHello, Reason> {
    let random = random_of(body)?;
    let mut rest = Rest(&body[RANDOM_END..]);
    let session = rest.vector(1)?.to_vec();
    rest.vector(2)?;
    rest.vector(1)?;
    let extensions = rest.extensions()?;
    let ticket = extensions.get(SESSION_TICKET).unwrap_or_default().to_vec();
    Ok(ClientHello { random, session, ticket, offers_early_data: extensions.has(EARLY_DATA) })
}

pub fn server_hello(body: &[u8]) -> Result<ServerHello<'_>, Reason> {
    let random = random_of(body)?;
    let mut rest = Rest(&body[RANDOM_END..]);
    let session = rest.vector(1)?;
    let suite = rest.number(2)? as u16;
    let compression = rest.number(1)? as u8;
    let extensions = rest.extensions()?;
    let chosen = extensions.get(SUPPORTED_VERSIONS).filter(|chosen| chosen.len() == 2);
    let version = Rest(chosen.unwrap_or(body)).number(2)? as u16;
    Ok(ServerHello { version, random, session, suite, compression, extensions })
}

pub fn encrypted_extensions(body: &[u8]) -> Result<Extensions<'_>, Reason> {
    Rest(body).extensions()
}

/// The protocol that a server chose (RFC 7301, 3.1).
pub fn protocol_of(extensions: &Extensions<'_>) -> Result<Option<Vec<u8>>, Reason> {
    match extensions.get(ALPN) {
        None => Ok(None),
        Some(chosen) => Ok(Some(Rest(Rest(chosen).vector(2)?).vector(1)?.to_vec())),
    }
}

/// The ticket of a NewSessionTicket of TLS 1.2, behind its lifetime (RFC 5077, 3.3).
pub fn new_ticket(body: &[u8]) -> Result<&[u8], Reason> {
    let mut rest = Rest(body);
    rest.take(4)?;
    rest.vector(2)
}

/// Puts handshake messages together again, which may be cut into records in any way (RFC 8446, 5.1).
#[derive(Default)]
pub struct Messages {
    held: Vec<u8>,
    /// So many bytes before there is more to see.
    needed: usize,
}

/// Messages that are whole: the type of each, and where its body stands.
pub struct Whole {
    content: Vec<u8>,
    places: Vec<(u8, std::ops::Range<usize>)>,
}

impl Whole {
    pub fn iter(&self) -> impl Iterator<Item = (u8, &[u8])> {
        self.places.iter().map(|(kind, place)| (*kind, &self.content[place.clone()]))
    }
}

impl Messages {
    /// The messages that are whole now.
    pub fn add(&mut self, content: &[u8]) -> Result<Whole, Reason> {
        self.held.extend_from_slice(content);
        if self.held.len() < self.needed {
            return Ok(Whole { content: Vec::new(), places: Vec::new() });
        }
        let content = std::mem::take(&mut self.held);
        let mut places = Vec::new();
        let mut at = 0;
        self.needed = HEADER_LENGTH;
        while let Some(&[kind, a, b, c]) = content.get(at..at + HEADER_LENGTH) {
            let length = HEADER_LENGTH + u32::from_be_bytes([0, a, b, c]) as usize;
            if length > LONGEST_MESSAGE {
                return Err(MALFORMED);
            }
            if content.len() - at < length {
                self.needed = length;
                break;
            }
            places.push((kind, at + HEADER_LENGTH..at + length));
            at += length;
        }
        self.held = content[at..].to_vec();
        Ok(Whole { content, places })
    }
}
