//! Joins connections that a capture met in their middle: finds where their frames begin, which side is the client,
//! which streams were open, and what credit each window must have had; and makes up a beginning with which plain
//! h2audit audits the unaltered packets.
//!
//! [`Joiner`] takes the segments of a pair of endpoints that was not seen to open a connection, as [`Piece`]s; what
//! stands behind a gap comes in the same way, and so does the plaintext of TLS, beside its segments
//! ([`Joiner::opened`]). [`Joiner::finish`] gives what is [`Joined`], or why nothing is. What is inferred has its
//! evidence in bits and a [`Grade`] (docs/WHY.md).
//!
//! ```text
//! incoming ─ border       the frames of both flows, in the order in which they came
//!    └─ course ─ sides, streams, windows ─ usual, evidence     what they tell
//!          └─ assumed     credits, and how sure they are
//!                └─ beginning ─ frames, handshake     the records that are made up
//! ```
//!
//! [`claimed`] and [`sure_of`] tell which findings of what is made are claimed of the connection.
//!
//! Each byte is looked at a bounded number of times. What is kept of a connection does not grow with its frames, but
//! with the streams that are open; at most 1 MiB of a flow waits for its border.

#![forbid(unsafe_code)]

mod assumed;
mod beginning;
mod border;
mod bounded;
mod claims;
mod course;
mod doubles;
mod evidence;
mod first_bytes;
mod frames;
mod handshake;
mod incoming;
mod joiner;
mod sides;
mod streams;
mod unjoined;
mod usual;
mod windows;

pub use assumed::{Assumed, Grade, What};
pub use claims::{assumed_of, claimed, sure_of, Sure};
pub use first_bytes::is_first_of_server;
pub use handshake::Made;
pub use incoming::Piece;
pub use joiner::{Border, How, Inferred, Joined, Joiner, CLIENT, SERVER};
pub use sides::SideEvidence;
pub use unjoined::Unjoined;
