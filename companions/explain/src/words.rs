//! How the answer is worded: durations, counts, codes, reasons.

pub use reports::{count, put_count};
use reports::{put_grouped, put_number};

use crate::answer::Nanos;

const CODES: [&str; 14] = [
    "NO_ERROR",
    "PROTOCOL_ERROR",
    "INTERNAL_ERROR",
    "FLOW_CONTROL_ERROR",
    "SETTINGS_TIMEOUT",
    "STREAM_CLOSED",
    "FRAME_SIZE_ERROR",
    "REFUSED_STREAM",
    "CANCEL",
    "COMPRESSION_ERROR",
    "CONNECT_ERROR",
    "ENHANCE_YOUR_CALM",
    "INADEQUATE_SECURITY",
    "HTTP_1_1_REQUIRED",
];
const UNITS: [(&str, Nanos); 3] = [("s", 1_000_000_000), ("ms", 1_000_000), ("µs", 1_000)];
/// So many bytes most durations take.
const USUAL_TIME: usize = 16;
/// Why connections were not audited, in words behind "3 connections".
const REASONS: [(&str, &str); 15] = [
    ("no-key", " of TLS without a key in the key logs (-k)"),
    ("wrong-key", " of TLS whose keys in the key logs are those of another run"),
    ("one-direction", " of which one direction alone was captured"),
    ("joined-beginning", " that began before the capture, and of which nothing that fits could be inferred"),
    ("no-syn-ack", " whose SYN ACK was not captured"),
    ("no-answer", " whose SYN had no answer"),
    ("refused-port", " that the server refused: an RST answered the SYN"),
    ("silent", " on which neither side said anything"),
    ("not-http2", " that spoke no HTTP/2, or began by an upgrade"),
    ("h2c-upgrade", " that began by HTTP/1.1 and asked for an upgrade to HTTP/2"),
    ("no-preface", " whose client sent no whole preface of HTTP/2"),
    ("handshake-unfinished", " of TLS that ended before the handshake did"),
    ("no-server-random", " of TLS 1.2 whose hellos were before the capture"),
    ("searched-numbers", " of TLS whose hellos were before the capture, and that no key of the key logs opens"),
    ("searched-seconds", " of TLS whose hellos were before the capture, and for which no time was left to search"),
];
/// Protocols that are told by the first bytes.
const PROTOCOLS: [(&str, &str); 13] = [
    ("http/0.9", "HTML without a status line"),
    ("http/1.0", "HTTP/1.0"),
    ("http/1.1", "HTTP/1.1"),
    ("tls", "TLS"),
    ("ssh", "SSH"),
    ("amqp", "AMQP"),
    ("postgresql", "PostgreSQL"),
    ("mysql", "MySQL"),
    ("mqtt", "MQTT"),
    ("redis", "Redis"),
    ("imap", "IMAP"),
    ("pop3", "POP3"),
    ("smtp-or-ftp", "SMTP or FTP"),
];

/// The name of an error code of HTTP/2 (RFC 9113, 7).
pub fn code_name(code: u32) -> String {
    match CODES.get(code as usize) {
        Some(name) => name.to_string(),
        None => format!("error 0x{code:x}"),
    }
}

/// A duration as a person says it: four digits from a second on, three below.
pub fn time_of(nanos: Nanos) -> String {
    let mut text = String::with_capacity(USUAL_TIME);
    put_time(&mut text, nanos);
    text
}

/// Puts a duration behind a text.
pub fn put_time(text: &mut String, nanos: Nanos) {
    let (unit, size) = match UNITS.iter().find(|unit| nanos >= unit.1) {
        Some((unit, size)) => (*unit, size.unsigned_abs()),
        None => {
            if nanos < 0 {
                text.push('-');
            }
            put_number(text, nanos.unsigned_abs());
            text.push_str(" ns");
            return;
        }
    };
    let nanos = nanos.unsigned_abs();
    if nanos >= 100 * size {
        put_grouped(text, (nanos + size / 2) / size);
    } else {
        let power = match nanos < 10 * size {
            true if unit == "s" => 1000,
            true => 100,
            false => 10,
        };
        put_fraction(text, (nanos * power + size / 2) / size, power);
    }
    text.push(' ');
    text.push_str(unit);
}

/// Writes so many parts, of which so many are a whole, without zeros at the end.
fn put_fraction(text: &mut String, parts: u64, power: u64) {
    put_number(text, parts / power);
    let (mut rest, mut place) = (parts % power, power / 10);
    if rest > 0 {
        text.push('.');
    }
    while rest > 0 {
        put_number(text, rest / place);
        (rest, place) = (rest % place, place / 10);
    }
}

/// Why connections were not audited: these, as "3 connections".
pub fn reason_words(why: &str, connections: &str) -> String {
    let first = why.split(' ').next().unwrap_or_default();
    match (REASONS.iter().find(|reason| reason.0 == first), protocol(first)) {
        (Some((_, words)), _) => format!("{connections}{words}"),
        (None, Some(protocol)) => format!("{connections} that spoke {protocol}"),
        (None, None) => format!("{connections} of TLS that could not be read ({why})"),
    }
}

/// What a protocol is called that is no HTTP/2.
pub fn protocol(name: &str) -> Option<&'static str> {
    PROTOCOLS.iter().find(|one| one.0 == name).map(|one| one.1)
}

#[cfg(test)]
mod tests {
    use super::*;

    #[test]
    fn durations() {
        let cases: [(Nanos, &str); 10] = [
            (0, "0 ns"),
            (999, "999 ns"),
            (1_000, "1 µs"),
            (1_234, "1.23 µs"),
            (9_999_999, "10 ms"),
            (39_650_000, "39.7 ms"),
            (100_000_000, "100 ms"),
            (2_300_540_000, "2.301 s"),
            (12_340_000_000, "12.3 s"),
            (1_234_500_000_000, "1,235 s"),
        ];
        for (nanos, said) in cases {
            assert_eq!(time_of(nanos), said);
        }
    }

    #[test]
    fn reasons() {
        let said = |why| reason_words(why, "these");
        assert_eq!(said("not-http2"), "these that spoke no HTTP/2, or began by an upgrade");
        assert_eq!(said("http/1.1"), "these that spoke HTTP/1.1");
        assert_eq!(said("gap 12"), "these of TLS that could not be read (gap 12)");
        assert_eq!((code_name(3), code_name(14)), ("FLOW_CONTROL_ERROR".to_string(), "error 0xe".to_string()));
    }
}
