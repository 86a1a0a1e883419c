//! Field blocks of HTTP/2 (HPACK, RFC 7541): of each block the first value of each name that says what a request was,
//! and how it was answered.
//!
//! ```
//! use hpack::{Damage, Decoder, Name};
//!
//! let mut decoder = Decoder::new();
//! let fields = decoder.decode(b"\x82\x84\x41\x0bexample.com")?;
//! assert_eq!(fields.value(Name::Method), Some(&b"GET"[..]));
//! assert_eq!(fields.value(Name::Authority), Some(&b"example.com"[..]));
//! assert_eq!(fields.value(Name::Status), None);
//!
//! // Each block stands on those before, so from the first damage on none is read.
//! assert_eq!(decoder.decode(b"\xbf").err(), Some(Damage::NoEntry));
//! assert_eq!(decoder.decode(b"\x82").err(), Some(Damage::NoEntry));
//! # Ok::<(), Damage>(())
//! ```
//!
//! A [`Decoder`] is one side's, with its dynamic table: the bytes of the names in [`Name`] are kept there, and only the
//! lengths of all others, which say what the table holds. What a side sends is read up to bounds, and never believed.

#![forbid(unsafe_code)]

mod block;
mod damage;
mod decoder;
mod fields;
mod huffman;
mod speaker;
mod static_table;
mod table;

#[cfg(test)]
mod rfc_examples;

pub use damage::{Damage, LARGEST_TABLE, LONGEST_BLOCK, LONGEST_LIST};
pub use decoder::Decoder;
pub use fields::{Fields, Name, Value, LONGEST_VALUE};
pub use speaker::{speaker, Speaker};
