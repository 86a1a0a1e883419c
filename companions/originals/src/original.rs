//! What a report of a capture that was made needs to become one of the original.
//!
//! It keeps 8 bytes for each record, and what is said of connections. What is said of packets that were passed over
//! goes into a temporary file where it is long.

use std::collections::HashMap;
use std::io::{self, Write};
use std::net::SocketAddrV4;
use std::rc::Rc;

use joined::How;
use reports::{count, Capture, Side};
use tempfile::SpooledTempFile;

use crate::beginning::Beginning;

/// So many bytes about packets that were passed over are kept in memory.
const MOST_SAID: usize = 1 << 20;
/// Flows that end so end as any other does: what was lost shows as a gap, what is cut as a tail.
const PLAIN_ENDS: [&str; 3] = ["whole", "cut", "lost"];

/// What became of a connection.
pub enum Became {
    /// It went through as it stands.
    Clear,
    /// Nothing of it could be read, for this reason.
    Refused(String),
    /// It was decrypted: its client's flow and its server's.
    Read([SideRead; 2]),
}

/// How one side's plaintext ends.
pub struct SideRead {
    pub has_gap: bool,
    /// Encrypted bytes of a record that is cut.
    pub tail: u64,
    pub end: String,
}

impl SideRead {
    /// Why the flow ends, where a report's other words do not tell.
    pub fn special_end(&self) -> Option<&str> {
        Some(self.end.as_str()).filter(|end| !PLAIN_ENDS.contains(end))
    }
}

/// A connection.
pub struct OriginalConnection {
    pub became: Became,
    /// How many IP fragments of its packets were passed over.
    pub fragments: u64,
    /// The time of its last packet, which an older map does not tell.
    pub last: Option<i64>,
}

/// How a connection was joined that began before the capture.
#[derive(Clone, Debug)]
pub enum Joined {
    /// Nothing is inferred: the report has it as any other.
    Exact,
    /// Nothing is inferred, and the report says how it was joined.
    ExactAndSaid(Vec<String>),
    /// What was made up goes off the report, which says so.
    Inferred(Rc<Beginning>),
    /// The report of the original has no line of it.
    LeftOut,
}

impl Joined {
    /// How a connection was joined that a report shows; with how many bytes of each side were made up, whether one
    /// direction alone was captured, and what the map says of it.
    pub fn of(how: &How, bytes: [u64; 2], is_one_way: bool, lines: Vec<String>) -> Joined {
        match how {
            How::Inferred(_) if is_one_way => Joined::LeftOut,
            How::Inferred(inferred) => {
                let inferred = (**inferred).clone();
                Joined::Inferred(Rc::new(Beginning { inferred, bytes, lines }))
            }
            How::Syn | How::Answer | How::Handshake => Joined::ExactAndSaid(lines),
        }
    }
}

/// A pair of endpoints that was not seen to open a connection: all its segments before any opening, of which the
/// capture that was made may have the first alone; and what became of it, where that was asked for.
pub struct Unopened {
    pub segments: u64,
    pub fate: Option<String>,
}

/// Packets that hold no TCP segment, by what they are.
pub struct Other {
    pub name: String,
    pub packets: u64,
}

pub struct Original {
    /// The packet that completed each record, numbered through all files.
    packets: Vec<u64>,
    addresses: HashMap<[u8; 4], String>,
    passed_over: SpooledTempFile,
    pub capture: Capture,
    /// By the packets of their openings.
    connections: HashMap<u64, OriginalConnection>,
    /// Those of them that were joined, also by the packets of their openings.
    joined: HashMap<u64, Joined>,
    /// Pairs of endpoints that were not seen to open a connection, where these are joined.
    unopened: HashMap<(String, String), Unopened>,
    /// What is to be said of times that go back.
    pub back: Option<String>,
    pub others: Vec<Other>,
    /// Whether it is audited itself, so that records are its packets, and the report has packets that were passed over.
    pub is_audited: bool,
}

impl Default for Original {
    fn default() -> Original {
        Original {
            packets: Vec::new(),
            addresses: HashMap::new(),
            passed_over: SpooledTempFile::new(MOST_SAID),
            capture: Capture::default(),
            connections: HashMap::new(),
            joined: HashMap::new(),
            unopened: HashMap::new(),
            back: None,
            others: Vec::new(),
            is_audited: false,
        }
    }
}

impl Original {
    pub fn add_record(&mut self, packet: u64) {
        self.packets.push(packet);
    }

    pub fn records(&self) -> u64 {
        self.packets.len() as u64
    }

    pub fn add_address(&mut self, stand_in: [u8; 4], original: String) {
        self.addresses.insert(stand_in, original);
    }

    /// Adds a packet that was passed over, or is cut, with why as a report says it.
    pub fn add_passed(&mut self, packet: u64, why: &str) -> io::Result<()> {
        writeln!(self.passed_over, "record {packet} {why}")
    }

    pub fn add_connection(&mut self, opening: u64, connection: OriginalConnection) {
        self.connections.insert(opening, connection);
    }

    /// The connection that this packet opened.
    pub fn connection(&self, opening: u64) -> Option<&OriginalConnection> {
        self.connections.get(&opening)
    }

    /// The connection that this packet opened, or that began with it, was joined.
    pub fn add_joined(&mut self, opening: u64, joined: Joined) {
        self.joined.insert(opening, joined);
    }

    pub fn joined(&self, opening: u64) -> Option<&Joined> {
        self.joined.get(&opening)
    }

    /// Adds a pair of endpoints, of which the first one sent the first segment.
    pub fn add_unopened(&mut self, ends: (String, String), pair: Unopened) {
        self.unopened.insert(ends, pair);
    }

    pub fn take_unopened(&mut self, ends: &(String, String)) -> Option<Unopened> {
        self.unopened.remove(ends)
    }

    /// How many connections could be read that a report has.
    pub fn read(&self) -> usize {
        let is_read = |(opening, one): &(&u64, &OriginalConnection)| {
            !matches!(self.joined(**opening), Some(Joined::LeftOut)) && !matches!(one.became, Became::Refused(_))
        };
        self.connections.iter().filter(is_read).count()
    }

    /// The packet that completed a record; records count from 1.
    pub fn packet(&self, record: u64) -> Option<u64> {
        if self.is_audited {
            return Some(record).filter(|record| (1..=self.capture.records).contains(record));
        }
        self.packets.get(usize::try_from(record.checked_sub(1)?).ok()?).copied()
    }

    /// An endpoint as the original has it: an address of IPv6 stands in brackets (RFC 3986, 3.2.2; RFC 5952).
    pub fn endpoint(&self, text: &str) -> Option<String> {
        let endpoint: SocketAddrV4 = text.parse().ok()?;
        match self.addresses.get(&endpoint.ip().octets()) {
            Some(original) => Some(format!("[{original}]:{}", endpoint.port())),
            None => Some(text.to_string()),
        }
    }

    /// Whether anything could be read, where it is nothing, and what was passed over that may hold more.
    pub fn passed_over_words(&self, is_nothing_read: bool) -> Option<String> {
        let others = self.others.iter().filter(|one| is_nothing_read || import::is_tunnel(&one.name));
        let named: Vec<String> = others.map(named).collect();
        match (is_nothing_read, named.is_empty()) {
            (true, true) => Some("no connection could be read".to_string()),
            (true, false) => Some(format!("no connection could be read; passed over: {}", named.join(", "))),
            (false, false) => Some(format!("passed over: {}", named.join(", "))),
            (false, true) => None,
        }
    }

    /// The lines about packets that were passed over.
    pub fn passed_over(&mut self) -> &mut SpooledTempFile {
        &mut self.passed_over
    }
}

impl OriginalConnection {
    pub fn side(&self, side: Side) -> Option<&SideRead> {
        match (&self.became, side) {
            (Became::Read([client, _]), Side::Client) => Some(client),
            (Became::Read([_, server]), Side::Server) => Some(server),
            _ => None,
        }
    }
}

fn named(other: &Other) -> String {
    let name = if other.name == "-" { "of another protocol" } else { other.name.as_str() };
    format!("{} {name}", count(other.packets, "packet"))
}
