//! Cuts the bytes of one side into TLS records (RFC 8446, 5.1; RFC 5246, 6.2).

pub const CHANGE_CIPHER_SPEC: u8 = 20;
pub const ALERT: u8 = 21;
pub const HANDSHAKE: u8 = 22;
pub const APPLICATION_DATA: u8 = 23;
const HEARTBEAT: u8 = 24;
pub const HEADER_LENGTH: usize = 5;
pub const LONGEST_BODY: usize = (1 << 14) + 2048;

pub type Header = [u8; HEADER_LENGTH];

/// Whether the first bytes of a side may begin a record: of a handshake, or where an alert may come first of one.
pub fn looks_like_tls(data: &[u8], alert_may_come: bool) -> bool {
    let kind = data.first().copied();
    let is_kind = kind == Some(HANDSHAKE) || alert_may_come && kind == Some(ALERT);
    is_kind && (data.len() < 2 || data[1] == 3)
}

/// What stands at the front of some bytes.
pub enum Front<'a> {
    /// The header of a whole record, and the rest of it.
    Record(Header, &'a [u8]),
    /// A part of one; so many bytes before there is more to see.
    Cut(usize),
    /// No record.
    Other,
}

#[inline]
pub fn front(data: &[u8]) -> Front<'_> {
    let (header, rest) = match data {
        [kind, major, minor, high, low, rest @ ..] => ([*kind, *major, *minor, *high, *low], rest),
        _ => return Front::Cut(HEADER_LENGTH),
    };
    let length = body_length(&header);
    if header[1] != 3 || !(CHANGE_CIPHER_SPEC..=HEARTBEAT).contains(&header[0]) || length > LONGEST_BODY {
        return Front::Other;
    }
    rest.get(..length).map_or(Front::Cut(HEADER_LENGTH + length), |body| Front::Record(header, body))
}

/// How many bytes a record has behind its header.
#[inline]
pub fn body_length(header: &Header) -> usize {
    usize::from(u16::from_be_bytes([header[3], header[4]]))
}

/// Takes bytes in order, and gives the records that are whole.
#[derive(Default)]
pub struct Records {
    held: Vec<u8>,
    /// So many bytes before there is more to see.
    needed: usize,
    /// What stands next is no record.
    is_broken: bool,
}

impl Records {
    /// How many bytes make no whole record yet.
    pub fn held(&self) -> usize {
        self.held.len()
    }

    pub fn is_broken(&self) -> bool {
        self.is_broken
    }

    /// Adds bytes, and gives header and body of each record that is whole now.
    pub fn add(&mut self, data: &[u8], mut give: impl FnMut(&Header, &[u8])) {
        if self.held.is_empty() {
            let used = self.cut(data, &mut give);
            self.held.extend_from_slice(&data[used..]);
            return;
        }
        self.held.extend_from_slice(data);
        if self.held.len() < self.needed || self.is_broken {
            return;
        }
        let mut held = std::mem::take(&mut self.held);
        let used = self.cut(&held, &mut give);
        if used < held.len() {
            held.drain(..used);
            self.held = held;
        }
    }

    /// Gives the whole records at the front, and answers how many bytes they have.
    fn cut(&mut self, data: &[u8], give: &mut impl FnMut(&Header, &[u8])) -> usize {
        let mut at = 0;
        loop {
            match front(&data[at..]) {
                Front::Record(header, body) => {
                    give(&header, body);
                    at += HEADER_LENGTH + body.len();
                }
                Front::Cut(needed) => {
                    self.needed = needed;
                    return at;
                }
                Front::Other => {
                    self.needed = HEADER_LENGTH;
                    self.is_broken = true;
                    return at;
                }
            }
        }
    }
}
