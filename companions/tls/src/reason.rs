//! What ends the reading of one side of a TLS connection, or of the whole connection (docs/MAP.md).

use std::fmt;

#[derive(Clone, Copy, Debug, PartialEq, Eq)]
pub enum Reason {
    NoKey,
    WrongKey,
    BadRecord,
    NotTls,
    NoHandshake,
    Snapped,
    HandshakeUnfinished,
    Renegotiation,
    TlsCompression,
    TruncatedHmac,
    TlsVersion(u16),
    CipherSuite(u16),
    Gap(u32),
    Tail(usize),
    Alert(u8),
    /// TLS 1.2 without its hellos.
    NoServerRandom,
    /// No secret opens a record with a number below this one.
    SearchedNumbers(u64),
    /// The time for searches is over.
    SearchedSeconds(u64),
}

impl fmt::Display for Reason {
    fn fmt(&self, out: &mut fmt::Formatter<'_>) -> fmt::Result {
        match self {
            Reason::NoKey => out.write_str("no-key"),
            Reason::WrongKey => out.write_str("wrong-key"),
            Reason::BadRecord => out.write_str("bad-record"),
            Reason::NotTls => out.write_str("not-tls"),
            Reason::NoHandshake => out.write_str("no-handshake"),
            Reason::Snapped => out.write_str("snapped"),
            Reason::HandshakeUnfinished => out.write_str("handshake-unfinished"),
            Reason::Renegotiation => out.write_str("renegotiation"),
            Reason::TlsCompression => out.write_str("tls-compression"),
            Reason::TruncatedHmac => out.write_str("truncated-hmac"),
            Reason::TlsVersion(version) => write!(out, "tls-version 0x{version:04x}"),
            Reason::CipherSuite(suite) => write!(out, "cipher-suite 0x{suite:04x}"),
            Reason::Gap(offset) => write!(out, "gap {offset}"),
            Reason::Tail(length) => write!(out, "tail {length}"),
            Reason::Alert(alert) => write!(out, "alert {alert}"),
            Reason::NoServerRandom => out.write_str("no-server-random"),
            Reason::SearchedNumbers(numbers) => write!(out, "searched-numbers {numbers}"),
            Reason::SearchedSeconds(seconds) => write!(out, "searched-seconds {seconds}"),
        }
    }
}
