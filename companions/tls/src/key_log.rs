//! Secrets of TLS connections, from key logs of NSS's format and from Decryption Secrets Blocks.
//!
//! A line is a label, the client's random and a secret, in hexadecimal digits (draft-ietf-tls-keylogfile). Lines of
//! other labels are passed over; a line that is none is counted, and never shown.

use std::collections::hash_map::{Entry, RandomState};
use std::collections::HashMap;
use std::hash::{BuildHasher, BuildHasherDefault, Hasher};
use std::io::{self, BufRead, BufReader, Read};

use crate::hellos::Random;

/// Which secret of a connection a line has.
#[derive(Clone, Copy, Debug, PartialEq, Eq)]
pub enum Label {
    Master,
    Early,
    ClientHandshake,
    ServerHandshake,
    ClientTraffic,
    ServerTraffic,
}

const LABELS: [(&[u8], Label); 6] = [
    (b"CLIENT_RANDOM", Label::Master),
    (b"CLIENT_EARLY_TRAFFIC_SECRET", Label::Early),
    (b"CLIENT_HANDSHAKE_TRAFFIC_SECRET", Label::ClientHandshake),
    (b"SERVER_HANDSHAKE_TRAFFIC_SECRET", Label::ServerHandshake),
    (b"CLIENT_TRAFFIC_SECRET_0", Label::ClientTraffic),
    (b"SERVER_TRAFFIC_SECRET_0", Label::ServerTraffic),
];
/// The labels of a client's and of a server's secrets, for the handshake and for what follows.
pub const OF_SIDES: [[Label; 2]; 2] =
    [[Label::ClientHandshake, Label::ClientTraffic], [Label::ServerHandshake, Label::ServerTraffic]];

const LONGEST_LINE: u64 = 1024;
const BUFFER: usize = 1 << 16;
const RANDOM_LENGTH: usize = 32;
const MOST_SECRET: usize = 48;
const NO_LINE: u32 = u32::MAX;

/// A secret that is known, in 88 bytes.
struct Line {
    random: Random,
    secret: [u8; MOST_SECRET],
    length: u8,
    label: Label,
    /// Another line whose random has the same hash.
    next: u32,
}

/// A hash is what these keys are.
#[derive(Default)]
struct Same(u64);

impl Hasher for Same {
    fn finish(&self) -> u64 {
        self.0
    }

    fn write(&mut self, _: &[u8]) {}

    fn write_u64(&mut self, number: u64) {
        self.0 = number;
    }
}

/// The secrets that are known, by client random and label, and how many lines were none.
pub struct Keys {
    lines: Vec<Line>,
    first: HashMap<u64, u32, BuildHasherDefault<Same>>,
    hashing: RandomState,
    pub has_master: bool,
    /// Whether a resumed connection waits for the end of the capture.
    pub waits_for_sessions: bool,
    pub bad_lines: u64,
}

impl Default for Keys {
    fn default() -> Keys {
        Keys {
            lines: Vec::new(),
            first: HashMap::default(),
            hashing: RandomState::new(),
            has_master: false,
            waits_for_sessions: true,
            bad_lines: 0,
        }
    }
}

/// What makes a line none.
struct BadLine;

impl Keys {
    pub fn find(&self, random: &Random, label: Label) -> Option<&[u8]> {
        let line = &self.lines[self.place(random, label)?];
        Some(&line.secret[..usize::from(line.length)])
    }

    /// All secrets with one of these labels: the random, the label, and the secret, in the order in which they came.
    pub fn with<'a>(&'a self, labels: &'a [Label]) -> impl Iterator<Item = (&'a Random, Label, &'a [u8])> {
        let lines = self.lines.iter().filter(move |line| labels.contains(&line.label));
        lines.map(|line| (&line.random, line.label, &line.secret[..usize::from(line.length)]))
    }

    /// Whether a secret of one side is known.
    pub fn has_of_side(&self, random: &Random, side: usize) -> bool {
        OF_SIDES[side].iter().any(|label| self.find(random, *label).is_some())
    }

    fn place(&self, random: &Random, label: Label) -> Option<usize> {
        let mut at = *self.first.get(&self.hash_of(random))?;
        while at != NO_LINE {
            let line = &self.lines[at as usize];
            if line.label == label && line.random == *random {
                return Some(at as usize);
            }
            at = line.next;
        }
        None
    }

    fn hash_of(&self, random: &Random) -> u64 {
        let mut hasher = self.hashing.build_hasher();
        hasher.write(random);
        hasher.finish()
    }

    /// Reads a key log, which may be in UTF-16, as PowerShell writes it, and may begin with a byte order mark.
    pub fn read(&mut self, file: impl Read) -> io::Result<()> {
        self.read_lines(file, |_| {})
    }

    /// Takes the lines of a text, and answers the randoms of which they have secrets that were not known. A connection
    /// waits for a secret of which there is no line yet, so that one which replaces another is nothing to wake it for.
    pub fn add_text(&mut self, text: &[u8]) -> Vec<Random> {
        let mut randoms = Vec::new();
        self.read_lines(text, |random| randoms.push(random)).expect("memory is read");
        randoms.sort_unstable();
        randoms.dedup();
        randoms
    }

    fn read_lines(&mut self, file: impl Read, mut met: impl FnMut(Random)) -> io::Result<()> {
        let mut file = BufReader::with_capacity(BUFFER, file);
        let mut begin = Vec::new();
        file.by_ref().take(3).read_to_end(&mut begin)?;
        match &begin[..] {
            [0xEF, 0xBB, 0xBF] => self.read_bytes(file, &mut met),
            [0xFF, 0xFE, rest @ ..] => self.read_bytes(utf_16(rest, file, u16::from_le_bytes), &mut met),
            [0xFE, 0xFF, rest @ ..] => self.read_bytes(utf_16(rest, file, u16::from_be_bytes), &mut met),
            _ => self.read_bytes(BufReader::with_capacity(BUFFER, begin.chain(file)), &mut met),
        }
    }

    /// The beginning stands for all of a line that is longer than any line of a key log.
    fn read_bytes(&mut self, mut file: impl BufRead, met: &mut impl FnMut(Random)) -> io::Result<()> {
        let mut line = Vec::new();
        let mut is_new = true;
        while file.by_ref().take(LONGEST_LINE).read_until(b'\n', &mut line)? > 0 {
            if is_new {
                self.add_line(&line, met);
            }
            is_new = line.ends_with(b"\n");
            line.clear();
        }
        Ok(())
    }

    fn add_line(&mut self, line: &[u8], met: &mut impl FnMut(Random)) {
        let mut words = line.split(|byte| matches!(byte, b' ' | 9..=13)).filter(|word| !word.is_empty());
        let first = match words.next() {
            None => return,
            Some(first) if first.starts_with(b"#") => return,
            Some(first) => first,
        };
        match (words.next(), words.next(), words.next()) {
            (Some(random), Some(secret), None) => match self.add(first, random, secret) {
                Ok(random) => random.into_iter().for_each(met),
                Err(BadLine) => self.bad_lines += 1,
            },
            _ => self.bad_lines += 1,
        }
    }

    /// Takes a line, and answers its random where no other line had this secret of it.
    fn add(&mut self, label: &[u8], random: &[u8], secret: &[u8]) -> Result<Option<Random>, BadLine> {
        let (mut found, mut bytes) = ([0; RANDOM_LENGTH], [0; MOST_SECRET]);
        let (random_length, length) = (unhexlified(random, &mut found)?, unhexlified(secret, &mut bytes)?);
        let label = match LABELS.iter().find(|(word, _)| *word == label) {
            None => return Ok(None),
            Some((_, label)) => *label,
        };
        if random_length != RANDOM_LENGTH || !matches!(length, 32 | 48) {
            return Err(BadLine);
        }
        self.has_master |= label == Label::Master;
        let line = Line { random: found, secret: bytes, length: length as u8, label, next: NO_LINE };
        match self.place(&found, label) {
            Some(at) => {
                self.lines[at] = Line { next: self.lines[at].next, ..line };
                Ok(None)
            }
            None => {
                self.enter(line);
                Ok(Some(found))
            }
        }
    }

    fn enter(&mut self, mut line: Line) {
        let at = self.lines.len() as u32;
        match self.first.entry(self.hash_of(&line.random)) {
            Entry::Occupied(mut first) => line.next = first.insert(at),
            Entry::Vacant(first) => {
                first.insert(at);
            }
        }
        self.lines.push(line);
    }
}

/// Puts the bytes of hexadecimal digits into a room, as far as it goes, and answers how many they are.
fn unhexlified(digits: &[u8], room: &mut [u8]) -> Result<usize, BadLine> {
    if digits.len() % 2 != 0 {
        return Err(BadLine);
    }
    let mut places = room.iter_mut();
    for pair in digits.chunks_exact(2) {
        let (high, low) = (DIGITS[usize::from(pair[0])], DIGITS[usize::from(pair[1])]);
        if high | low > 15 {
            return Err(BadLine);
        }
        if let Some(place) = places.next() {
            *place = high << 4 | low;
        }
    }
    Ok(digits.len() / 2)
}

/// The value of each byte as a digit; 255 where it is none.
const DIGITS: [u8; 256] = {
    let mut values = [255; 256];
    let mut at = 0;
    while at < 256 {
        values[at] = match at as u8 {
            digit @ b'0'..=b'9' => digit - b'0',
            digit @ b'a'..=b'f' => digit - b'a' + 10,
            digit @ b'A'..=b'F' => digit - b'A' + 10,
            _ => 255,
        };
        at += 1;
    }
    values
};

/// Text in UTF-16 as bytes. No letter beyond ASCII stands in a line of a key log, so any is as good as another.
struct Utf16<R> {
    inner: R,
    number: fn([u8; 2]) -> u16,
}

fn utf_16<'a>(rest: &'a [u8], file: impl Read + 'a, number: fn([u8; 2]) -> u16) -> impl BufRead + 'a {
    BufReader::with_capacity(BUFFER, Utf16 { inner: BufReader::with_capacity(BUFFER, rest.chain(file)), number })
}

impl<R: BufRead> Read for Utf16<R> {
    fn read(&mut self, room: &mut [u8]) -> io::Result<usize> {
        let mut made = 0;
        while made < room.len() {
            let mut unit = [0; 2];
            let mut got = 0;
            while got < 2 {
                match self.inner.read(&mut unit[got..])? {
                    0 => return Ok(made),
                    more => got += more,
                }
            }
            room[made] = u8::try_from((self.number)(unit)).unwrap_or(b'?');
            made += 1;
        }
        Ok(made)
    }
}

#[cfg(test)]
mod tests {
    use super::*;

    fn text() -> String {
        format!("# a comment\nCLIENT_RANDOM {} {}\r\n", "Ab".repeat(32), "12".repeat(48))
    }

    fn read(bytes: &[u8]) -> (Option<usize>, u64) {
        let mut keys = Keys::default();
        keys.read(bytes).unwrap();
        (keys.find(&[0xab; 32], Label::Master).map(<[u8]>::len), keys.bad_lines)
    }

    #[test]
    fn forms_of_text() {
        let utf_16 = |number: fn(u16) -> [u8; 2], mark: [u8; 2]| {
            let units: Vec<u8> = text().encode_utf16().flat_map(number).collect();
            [&mark[..], &units].concat()
        };
        let found = (Some(48), 0);
        assert_eq!(read(text().as_bytes()), found);
        assert_eq!(read(&[b"\xEF\xBB\xBF", text().as_bytes()].concat()), found);
        assert_eq!(read(&utf_16(u16::to_le_bytes, [0xFF, 0xFE])), found);
        assert_eq!(read(&utf_16(u16::to_be_bytes, [0xFE, 0xFF])), found);
        assert_eq!(read(b""), (None, 0));
        assert_eq!(read(b"\xFF\xFE"), (None, 0));
    }

    #[test]
    fn lines_that_are_none_are_counted() {
        let (random, secret) = ("ab".repeat(32), "12".repeat(48));
        let lines = [
            format!("CLIENT_RANDOM {random} {secret}zz"),
            format!("CLIENT_RANDOM {secret}"),
            secret.repeat(100),
            format!("CLIENT_RANDOM {} {secret}", &random[2..]),
            format!("CLIENT_RANDOM {random} {}", &secret[2..]),
            format!("CLIENT_TRAFFIC_SECRET_0 {random} {secret} more"),
        ];
        assert_eq!(read(lines.join("\n").as_bytes()), (None, lines.len() as u64));
        assert_eq!(read(format!("ANOTHER_LABEL {random} 12\n\n").as_bytes()), (None, 0));
    }

    /// The last line of a label counts.
    #[test]
    fn secrets_are_found_by_random_and_label() {
        let mut keys = Keys::default();
        let line =
            |label: &str, random: &str, secret: &str| format!("{label} {} {}\n", random.repeat(32), secret.repeat(32));
        let first = [line("CLIENT_RANDOM", "01", "11"), line("CLIENT_TRAFFIC_SECRET_0", "02", "22")].concat();
        assert_eq!(keys.add_text(first.as_bytes()), [[1; 32], [2; 32]]);
        keys.add_text(line("CLIENT_RANDOM", "01", "33").as_bytes());
        assert_eq!(keys.find(&[1; 32], Label::Master), Some(&[0x33; 32][..]));
        assert_eq!(keys.find(&[1; 32], Label::ClientTraffic), None);
        assert_eq!(keys.find(&[2; 32], Label::ClientTraffic), Some(&[0x22; 32][..]));
        assert!(keys.has_of_side(&[2; 32], 0) && !keys.has_of_side(&[2; 32], 1));
    }

    /// A block of secrets names the connections that it brings something for, and those alone.
    #[test]
    fn secrets_that_are_known_wake_no_connection() {
        let mut keys = Keys::default();
        let mut woken = |label: &str, secret: &str| {
            keys.add_text(format!("{label} {} {}\n", "01".repeat(32), secret.repeat(32)).as_bytes())
        };
        let nothing: [Random; 0] = [];
        assert_eq!(woken("CLIENT_EARLY_TRAFFIC_SECRET", "11"), [[1; 32]]);
        assert_eq!(woken("CLIENT_EARLY_TRAFFIC_SECRET", "11"), nothing);
        assert_eq!(woken("CLIENT_EARLY_TRAFFIC_SECRET", "22"), nothing);
        assert_eq!(woken("SERVER_TRAFFIC_SECRET_0", "11"), [[1; 32]]);
        assert_eq!(woken("ANOTHER_LABEL", "11"), nothing);
    }
}
