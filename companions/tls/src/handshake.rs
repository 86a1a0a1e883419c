//! What both sides of a TLS connection agree on, and the keys that follow from it.
//!
//! A side goes through stages; each protected stage has its keys. They are made when the first record that needs them
//! comes, since keys may still be on their way. [`Handshake::read`] gives none where a record has to wait.
//!
//! What a record's reading depends on (version, suite, both randoms) is settled by the ServerHello that is taken, and
//! nothing in the clear changes it after that.

mod joined;
mod protected;

use std::collections::VecDeque;

use crate::connection::Shared;
use crate::hellos::{self, ClientHello, Messages, Random, ServerHello};
use crate::key_log::{Keys, Label, OF_SIDES};
use crate::key_schedule::{key_block, traffic_keys, TrafficKeys};
use crate::protection::Opener;
use crate::reason::Reason;
use crate::records::{Header, ALERT, APPLICATION_DATA, CHANGE_CIPHER_SPEC, HANDSHAKE};
use crate::suites::{suite_of, Suite};
use crate::{CLIENT, SERVER, TLS_1_2, TLS_1_3};

/// A client says hello once more after a retry.
const MOST_HELLOS: u32 = 2;

/// Which keys the next protected record of a side needs.
#[derive(Clone, Copy, Debug, Default, PartialEq, Eq)]
pub enum Stage {
    /// In TLS 1.3, those of early data or of the handshake.
    #[default]
    First,
    Early,
    Handshake,
    Traffic,
}

/// What is known of one side.
#[derive(Default)]
struct Half {
    stage: Stage,
    messages: Messages,
    opener: Option<Box<Opener>>,
    secret: Vec<u8>,
    /// Key updates before this secret, and the secrets before the last ones, as many as are looked for behind a gap.
    updates: u32,
    earlier: VecDeque<Vec<u8>>,
    /// Records, with the keys in use.
    opened: u64,
    /// Passes over early data that was rejected.
    skips: bool,
}

/// The content of a record stands at the front of the room, in so many bytes; none where the record has to wait.
pub type Content = Result<Option<usize>, Reason>;

const NOTHING: Content = Ok(Some(0));

/// Takes the records of each side in order.
#[derive(Default)]
pub struct Handshake {
    number: u64,
    /// The client's random, where a secret was found without the hellos.
    joined: Option<Random>,
    /// The client's side is the one with the index of servers.
    is_swapped: bool,
    more_keys: bool,
    waits_for_key: bool,
    halves: [Half; 2],
    client_hello: Option<Box<ClientHello>>,
    server_random: Option<Random>,
    is_encrypted_first: bool,
    /// In TLS 1.2: the server does not go on with a session.
    is_full: bool,
    suite: Option<Suite>,
    version: Option<u16>,
    protocol: Option<Vec<u8>>,
    block: Option<Box<[TrafficKeys; 2]>>,
    hello_count: u32,
    has_retried: bool,
    /// Unknown before EncryptedExtensions.
    accepts_early_data: Option<bool>,
    early_records: u64,
    rejected_records: u64,
    opened: u64,
    alert: Option<u8>,
}

impl Handshake {
    pub fn new(number: u64, more_keys: bool) -> Handshake {
        Handshake { number, more_keys, ..Handshake::default() }
    }

    #[inline]
    pub fn stage(&self, side: usize) -> Stage {
        self.halves[side].stage
    }

    /// The version, once a ServerHello has said it.
    pub fn version(&self) -> Option<u16> {
        self.version
    }

    pub fn suite(&self) -> Option<Suite> {
        self.suite
    }

    /// The protocol that the server chose by ALPN.
    pub fn protocol(&self) -> Option<&[u8]> {
        self.protocol.as_deref()
    }

    /// Records of early data that the server accepted, and those that it rejected.
    pub fn early_data(&self) -> (u64, u64) {
        (self.early_records, self.rejected_records)
    }

    /// How many records were opened.
    #[inline]
    pub fn opened(&self) -> u64 {
        self.opened
    }

    /// The last fatal alert.
    pub fn alert(&self) -> Option<u8> {
        self.alert
    }

    #[inline]
    pub fn waits_for_key(&self) -> bool {
        self.waits_for_key
    }

    /// The client's random, by which secrets are known.
    pub fn client_random(&self) -> Option<Random> {
        self.client_hello.as_ref().map(|hello| hello.random).or(self.joined)
    }

    /// From here on no further key comes.
    pub fn expect_no_key(&mut self) {
        self.more_keys = false;
    }

    /// Whether a side could be read though the other one cannot, for want of its secrets.
    pub fn can_read(&self, side: usize, keys: &Keys) -> bool {
        let random = self.client_random().filter(|_| self.version == Some(TLS_1_3));
        random.map_or(false, |random| keys.has_of_side(&random, self.role(side)))
    }

    pub fn read(
        &mut self,
        shared: &mut Shared,
        side: usize,
        header: &Header,
        body: &[u8],
        room: &mut Vec<u8>,
    ) -> Content {
        let kind = header[0];
        if self.halves[side].opener.is_some() {
            return match self.version {
                Some(TLS_1_3) => self.read_13(side, header, body, room),
                _ => self.read_12(side, header, body, room),
            };
        }
        match kind {
            HANDSHAKE => return self.read_clear(shared, side, body),
            CHANGE_CIPHER_SPEC => return self.change_cipher(shared, side),
            APPLICATION_DATA => return self.first_protected(shared, side, header, body, room),
            ALERT => self.note_alert(body),
            _ => {}
        }
        NOTHING
    }

    // Before protection

    fn read_clear(&mut self, shared: &mut Shared, side: usize, content: &[u8]) -> Content {
        let messages = self.halves[side].messages.add(content)?;
        for (kind, body) in messages.iter() {
            match (side, kind) {
                (CLIENT, hellos::CLIENT_HELLO) => self.meet_client_hello(hellos::client_hello(body)?)?,
                (CLIENT, _) => {}
                (_, hellos::SERVER_HELLO) => self.meet_server_hello(shared, &hellos::server_hello(body)?)?,
                (_, hellos::NEW_SESSION_TICKET) if self.version == Some(TLS_1_2) => {
                    self.begin_session(shared, hellos::new_ticket(body)?);
                }
                (_, hellos::SERVER_HELLO_DONE) => self.is_full = true,
                _ => {}
            }
        }
        NOTHING
    }

    fn meet_client_hello(&mut self, hello: ClientHello) -> Result<(), Reason> {
        self.hello_count = (self.hello_count + 1).min(MOST_HELLOS);
        let known = self.client_random();
        if self.server_random.is_some() && known.is_some() && known != Some(hello.random) {
            return Err(Reason::NotTls);
        }
        self.client_hello = Some(Box::new(hello));
        Ok(())
    }

    fn meet_server_hello(&mut self, shared: &mut Shared, hello: &ServerHello<'_>) -> Result<(), Reason> {
        if self.server_random.is_some() {
            return Err(Reason::NotTls);
        }
        if !matches!(hello.version, TLS_1_2 | TLS_1_3) {
            return Err(Reason::TlsVersion(hello.version));
        }
        if hello.is_retry() {
            self.has_retried = true;
            self.version = Some(hello.version);
            return Ok(());
        }
        let is_of_version = (hello.version == TLS_1_3) == (hello.suite >> 8 == 0x13);
        let suite = suite_of(hello.suite).filter(|_| is_of_version).ok_or(Reason::CipherSuite(hello.suite))?;
        if hello.compression != 0 {
            return Err(Reason::TlsCompression);
        }
        if hello.extensions.has(hellos::TRUNCATED_HMAC) && suite.mac.is_some() {
            return Err(Reason::TruncatedHmac);
        }
        self.version = Some(hello.version);
        self.suite = Some(suite);
        self.server_random = Some(hello.random);
        if hello.version == TLS_1_2 {
            self.protocol = hellos::protocol_of(&hello.extensions)?;
            self.is_encrypted_first = hello.extensions.has(hellos::ENCRYPT_THEN_MAC);
            if self.client_hello.as_ref().map_or(false, |client| client.session != hello.session) {
                self.begin_session(shared, hello.session);
            }
        }
        Ok(())
    }

    /// Keeps the name that a server gives its session, where its secret may be known.
    fn begin_session(&mut self, shared: &mut Shared, name: &[u8]) {
        if let Some(hello) = self.client_hello.as_ref().filter(|_| shared.keys.has_master || self.more_keys) {
            shared.sessions.begin(name, &hello.random);
        }
    }

    // Keys

    /// A secret of this connection; none where it may still come.
    fn secret(&mut self, shared: &mut Shared, random: &Random, label: Label) -> Result<Option<Vec<u8>>, Reason> {
        let found = shared.keys.find(random, label).map(<[u8]>::to_vec);
        let is_missing = found.is_none();
        let is_resumed = is_missing && label == Label::Master && self.is_resumed(&shared.keys);
        self.waits_for_key = is_missing && (self.more_keys || is_resumed && shared.keys.waits_for_sessions);
        if is_resumed && !self.waits_for_key {
            self.resume(shared);
        }
        if is_missing && !self.waits_for_key {
            return Err(Reason::NoKey);
        }
        Ok(found)
    }

    /// Whether an earlier connection may have had the master secret of this one: its server has said ChangeCipherSpec
    /// before ServerHelloDone (RFC 5246, 7.3).
    pub fn is_resumed(&self, keys: &Keys) -> bool {
        let named =
            self.client_hello.as_ref().map_or(false, |hello| !hello.session.is_empty() || !hello.ticket.is_empty());
        !self.is_full && keys.has_master && named
    }

    /// Asks for the secret of the session that this connection goes on with.
    pub fn resume(&self, shared: &mut Shared) {
        if let Some(hello) = &self.client_hello {
            shared.sessions.resume([&hello.ticket, &hello.session], self.number, &hello.random);
        }
    }

    /// In TLS 1.2 the next record is protected (RFC 5246, 7.1); in TLS 1.3 this says nothing (RFC 8446, D.4).
    fn change_cipher(&mut self, shared: &mut Shared, side: usize) -> Content {
        if self.version == Some(TLS_1_3) {
            return NOTHING;
        }
        let (random, server_random, suite) = match (self.client_random(), self.server_random, self.suite) {
            (Some(random), Some(server_random), Some(suite)) => (random, server_random, suite),
            _ => return Ok(None),
        };
        if self.block.is_none() {
            match self.secret(shared, &random, Label::Master)? {
                None => return Ok(None),
                Some(master) => self.block = Some(Box::new(key_block(&suite, &master, &random, &server_random))),
            }
        }
        if let Some(block) = &self.block {
            let opener = Opener::tls_1_2(&suite, &block[side], self.is_encrypted_first)?;
            self.halves[side] = Half { stage: Stage::Traffic, opener: Some(Box::new(opener)), ..Half::default() };
        }
        NOTHING
    }

    /// The first record of a stage, or early data that is not accepted.
    fn first_protected(
        &mut self,
        shared: &mut Shared,
        side: usize,
        header: &Header,
        body: &[u8],
        room: &mut Vec<u8>,
    ) -> Content {
        if side == CLIENT && self.has_retried && self.hello_count < MOST_HELLOS {
            self.rejected_records += 1;
            return NOTHING;
        }
        let random = match (self.client_random(), self.suite) {
            (Some(random), Some(_)) => random,
            _ => return Ok(None),
        };
        if self.version != Some(TLS_1_3) {
            return Err(Reason::NotTls);
        }
        if self.stage(side) == Stage::First {
            match self.first_stage(side) {
                None => return Ok(None),
                Some(first) => self.halves[side].stage = first,
            }
        }
        let role = self.role(side);
        let label = match self.stage(side) {
            Stage::Early => Label::Early,
            Stage::Traffic => OF_SIDES[role][1],
            Stage::First | Stage::Handshake => OF_SIDES[role][0],
        };
        match self.secret(shared, &random, label)? {
            None => Ok(None),
            Some(secret) => {
                self.protect(side, secret)?;
                self.read_13(side, header, body, room)
            }
        }
    }

    /// Early data comes first where the server accepts it; else it is passed over (RFC 8446, 4.2.10).
    fn first_stage(&mut self, side: usize) -> Option<Stage> {
        let offers = self.client_hello.as_ref().map_or(false, |hello| hello.offers_early_data);
        if side == SERVER || !offers {
            return Some(Stage::Handshake);
        }
        let accepts = self.accepts_early_data?;
        self.halves[side].skips = !accepts;
        Some(if accepts { Stage::Early } else { Stage::Handshake })
    }

    /// Makes the keys of the side's stage in TLS 1.3 (RFC 8446, 7.1).
    fn protect(&mut self, side: usize, secret: Vec<u8>) -> Result<(), Reason> {
        let suite = self.suite.ok_or(Reason::NotTls)?;
        let opener = Opener::tls_1_3(&suite, &traffic_keys(&suite, &secret))?;
        let half = &mut self.halves[side];
        half.messages = Messages::default();
        half.opener = Some(Box::new(opener));
        (half.secret, half.opened) = (secret, 0);
        Ok(())
    }
}
