//! What a side says that is no HTTP/2, by the first bytes that it sent, and why a connection has none (docs/WHY.md, 8).

use import::{TcpCourse, CLIENT, SERVER};

use crate::answer::Outcome;
use crate::words::protocol;

/// What the first packet of a side with payload begins.
#[derive(Clone, Copy, Debug, Default, PartialEq, Eq)]
pub enum Spoken {
    #[default]
    Nothing,
    /// A request, or an answer with its status, of HTTP/1.0 or HTTP/1.1.
    Http1 {
        minor: u8,
        status: Option<u16>,
    },
    /// A request of HTTP/1.1 that asks for HTTP/2.
    Upgrade,
    Named(&'static str),
    Other,
}

/// How other protocols begin.
const OTHERS: [(&str, &[u8]); 10] = [
    ("tls", b"\x16\x03"),
    ("tls", b"\x15\x03"),
    ("ssh", b"SSH-"),
    ("amqp", b"AMQP"),
    ("postgresql", b"\0\0\0\x08\x04\xd2\x16\x2f"),
    ("smtp-or-ftp", b"220 "),
    ("smtp-or-ftp", b"220-"),
    ("imap", b"* OK"),
    ("pop3", b"+OK"),
    ("http/0.9", b"<!DOCTYPE "),
];
/// How long the length at its start is, and what follows.
const STARTUP: (&str, usize, &[u8]) = ("postgresql", 4, b"\0\x03\0\0");
const GREETING: (&str, usize, &[u8]) = ("mysql", 3, b"\0\n");
const MQTT: (&str, [&[u8]; 2]) = ("mqtt", [b"\0\x04MQTT", b"\0\x06MQIsdp"]);
const REDIS: (&str, u8) = ("redis", b'*');

impl Spoken {
    /// By the first bytes of a side.
    pub fn by(bytes: &[u8]) -> Spoken {
        if bytes.is_empty() {
            return Spoken::Nothing;
        }
        let line = bytes.split(|byte| *byte == b'\n').next().unwrap_or_default();
        let line = line.strip_suffix(b"\r").unwrap_or(line);
        http1_of(line, bytes).or_else(|| other_of(line, bytes).map(Spoken::Named)).unwrap_or(Spoken::Other)
    }

    /// Its name, as reasons have it.
    pub fn name(self) -> Option<&'static str> {
        match self {
            Spoken::Http1 { minor: 0, .. } => Some("http/1.0"),
            Spoken::Http1 { .. } => Some("http/1.1"),
            Spoken::Upgrade => Some("h2c-upgrade"),
            Spoken::Named(name) => Some(name),
            Spoken::Nothing | Spoken::Other => None,
        }
    }
}

fn http1_of(line: &[u8], bytes: &[u8]) -> Option<Spoken> {
    if let Some([b'0'..=b'1', ..]) = line.strip_prefix(b"HTTP/1.") {
        let status =
            line.get(9..12).and_then(|digits| std::str::from_utf8(digits).ok()).and_then(|one| one.parse().ok());
        return Some(Spoken::Http1 { minor: line[7] - b'0', status });
    }
    let minor = match line.get(line.len().saturating_sub(9)..)? {
        b" HTTP/1.0" => 0,
        b" HTTP/1.1" => 1,
        _ => return None,
    };
    let asks = |field: &[u8]| field.to_ascii_lowercase().starts_with(b"upgrade: h2c");
    match bytes.split(|byte| *byte == b'\n').any(asks) {
        true => Some(Spoken::Upgrade),
        false => Some(Spoken::Http1 { minor, status: None }),
    }
}

fn other_of(line: &[u8], bytes: &[u8]) -> Option<&'static str> {
    let stands = |(name, at, word): (&'static str, usize, &[u8])| {
        bytes.get(at..).filter(|rest| rest.starts_with(word)).map(|_| name)
    };
    let begins = OTHERS.into_iter().find(|(_, word)| bytes.starts_with(word)).map(|(name, _)| name);
    let is_mqtt =
        || bytes.first() == Some(&0x10) && MQTT.1.iter().any(|word| (2..6).any(|at| stands(("", at, word)).is_some()));
    let is_redis = || {
        let digits = line.get(1..).filter(|digits| !digits.is_empty() && digits.iter().all(u8::is_ascii_digit));
        line.len() < bytes.len() && line.first() == Some(&REDIS.1) && digits.is_some()
    };
    let found = begins.or_else(|| stands(STARTUP)).or_else(|| stands(GREETING));
    found.or_else(|| is_mqtt().then_some(MQTT.0)).or_else(|| is_redis().then_some(REDIS.0))
}

/// Why h2audit did not audit a connection, where the capture shows it: more than the report's word.
pub fn reason_of(outcome: Outcome, course: &TcpCourse, spoken: [Spoken; 2]) -> Option<&'static str> {
    let [client, server] = [CLIENT, SERVER].map(|side| &course.sides[side]);
    match outcome {
        Outcome::NoHandshake if server.rst.is_some() && client.segments + server.segments == 0 => Some("refused-port"),
        Outcome::NoHandshake if server.last.is_some() => Some("no-syn-ack"),
        Outcome::NoHandshake if client.acknowledges => Some("one-direction"),
        Outcome::NoHandshake => Some("no-answer"),
        Outcome::NotHttp2 | Outcome::NoPreface if client.segments + server.segments == 0 => Some("silent"),
        Outcome::NoPreface if client.segments > 0 => None,
        Outcome::NotHttp2 | Outcome::NoPreface => spoken[CLIENT].name().or_else(|| spoken[SERVER].name()),
        Outcome::Http2 | Outcome::Refused => None,
    }
}

/// What is said of a server that answers the preface of HTTP/2 by something else, in a packet.
pub fn note_of((spoken, packet): (Spoken, u64)) -> Option<String> {
    let said = match spoken {
        Spoken::Http1 { minor, status } => {
            let status = status.map_or(String::new(), |status| format!(" {status}"));
            format!("HTTP/1.{minor}{status}")
        }
        Spoken::Named(name) => protocol(name)?.to_string(),
        Spoken::Nothing | Spoken::Upgrade | Spoken::Other => return None,
    };
    Some(format!("the server answered by {said} in packet {packet}: it speaks no HTTP/2 here"))
}

#[cfg(test)]
mod tests {
    use super::*;

    #[test]
    fn first_bytes() {
        let cases: [(&[u8], Option<&str>); 22] = [
            (b"", None),
            (b"GET / HTTP/1.1\r\nHost: a\r\n\r\n", Some("http/1.1")),
            (b"POST /a HTTP/1.0\n\n", Some("http/1.0")),
            (b"GET / HTTP/1.1\r\nHost: a\r\nUPGRADE: h2c\r\n\r\n", Some("h2c-upgrade")),
            (b"HTTP/1.1 400 Bad Request\r\n", Some("http/1.1")),
            (b"HTTP/1.0", Some("http/1.0")),
            (b"HTTP/1.", None),
            (b"PRI * HTTP/2.0\r\n\r\nSM\r\n\r\n", None),
            (b" HTTP/1.1", Some("http/1.1")),
            (b"SSH-2.0-OpenSSH\r\n", Some("ssh")),
            (b"220 mail ESMTP\r\n", Some("smtp-or-ftp")),
            (b"\x16\x03\x01\x02", Some("tls")),
            (b"\0\0\0\x08\x04\xd2\x16\x2f", Some("postgresql")),
            (b"\0\0\0\x29\0\x03\0\0user\0", Some("postgresql")),
            (b"\x4a\0\0\0\n8.0.32\0", Some("mysql")),
            (b"\x10\x0e\0\x04MQTT\x04", Some("mqtt")),
            (b"*1\r\n$4\r\nPING\r\n", Some("redis")),
            (b"*\r\n", None),
            (b"*1", None),
            (b"<!DOCTYPE HTML>\n", Some("http/0.9")),
            (b"AMQP\0\0\x09\x01", Some("amqp")),
            (b"\xff\xfe", None),
        ];
        for (bytes, name) in cases {
            assert_eq!(Spoken::by(bytes).name(), name, "{}", String::from_utf8_lossy(bytes));
        }
        let status = |bytes: &[u8]| match Spoken::by(bytes) {
            Spoken::Http1 { status, .. } => status,
            _ => None,
        };
        assert_eq!(status(b"HTTP/1.1 400 Bad Request\r\n"), Some(400));
        assert_eq!((status(b"HTTP/1.1 4"), status(b"HTTP/1.1 4\xff0 \r\n")), (None, None));
    }
}
