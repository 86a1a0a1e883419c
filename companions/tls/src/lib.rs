//! Reads TLS 1.2 and TLS 1.3 of captures, with the secrets of key logs: key schedules, records, and what both sides
//! agree on. Every record has to prove its tag or its MAC. All primitives are OpenSSL's, of the system, but for a
//! filter of guesses (`chacha20`), behind which the tag stands too.
//!
//! [`TlsConnection`] takes the segments of both sides, and hands plaintext to an [`Emit`] in the order in which its
//! records were completed. [`Shared`] has what all connections share: the [`Keys`] that are known, and the [`Sessions`]
//! that were met. [`Reason`] says why a side or a connection ended.
//!
//! [`TlsConnection::from_middle`] does so where the hellos were not seen, in TLS 1.3: borders → sample → search
//! (filter) → middle. It [finds](Search) the secret and the number of a record for each side, and all records follow.
//!
//! No message, and no `Debug` text, ever holds a byte of a key or of plaintext.

#![forbid(unsafe_code)]

mod borders;
mod chacha20;
mod connection;
mod filter;
mod handshake;
mod hashes;
mod hellos;
mod key_log;
mod key_schedule;
mod middle;
mod protection;
mod reason;
mod records;
mod sample;
#[cfg(test)]
mod sealing;
mod search;
mod sessions;
mod suites;

pub use connection::{Emit, Known, Shared, Side, TlsConnection};
pub use handshake::{Handshake, Stage};
pub use hellos::Random;
pub use key_log::Keys;
pub use reason::Reason;
pub use records::looks_like_tls;
pub use search::{Search, MOST_UPDATES};
pub use sessions::{lines_for, Sessions};
pub use suites::{suite_of, Suite};

/// The sides of a connection, as indices.
pub const CLIENT: usize = 0;
pub const SERVER: usize = 1;

pub const TLS_1_2: u16 = 0x0303;
pub const TLS_1_3: u16 = 0x0304;
