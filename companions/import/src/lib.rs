//! Turns captures as people have them into one that h2audit reads, and says which packet of the original made each
//! record: h2audit-import, and what stands before the audit of other programs.
//!
//! The way of a packet:
//!
//! ```text
//! captures ─ reorder ─ importing ─ table, connections ─ tls ─ sink
//! packets    by time   segments    clear or TLS                capture and listener
//! ```
//!
//! [`imported`] does the work of [`ImportOptions`], into a [`Sink`] over a [`Target`], which takes the bytes of the
//! capture that is made, and a [`Listener`], which takes all else in the same process:
//!
//! - each [`Record`] as it is written, with its number, its packet and its connection, so that who reads what is made
//!   needs no table of connections. [`Written`] has its bytes, and where its payload stands;
//! - what is passed over, and at the end the [`Summary`], which says what became of each connection;
//! - `begin_anew`, where all files are read once more, as the sessions in them gave more keys.
//!
//! [`MadeCapture`] is a target for h2audit, which reads the original in its place as long as both mean the same.
//!
//! [`Courses`] has, after the import, what TCP did on each connection, where that is asked for; the memory for it is
//! bounded by connections and by the stretches of time in which TCP held back what a side sends.
//!
//! With [`ImportOptions::is_joined`], connections that began before the capture are joined (the crate `joined`): behind
//! all else come records that are made up ([`Record::is_made`]), and the packets of these connections, as new ones
//! behind all others. [`Summary::joined`] has how, and what is assumed; [`Fate`] what became of each pair that opened
//! none. TLS 1.3 is opened without its hellos, within [`Bounds`]:
//!
//! ```text
//! table ─ joining ─ followed ─┬─ joined             a pair's frames, and what is made up for them
//!                             └─ encrypted ─ tls    its plaintext, where it has records
//!            └─ waiting    packets and plaintext, until all is read
//! ```
//!
//! Connections count from 0 on in the order of openings, in [`Sender`], [`Summary`] and [`Courses`] alike.

#![forbid(unsafe_code)]

mod addresses;
mod answers;
mod behind;
mod bounds;
mod budget;
pub mod command;
mod common;
mod connections;
mod course;
mod encrypted;
mod ends_hashing;
mod followed;
mod gaps;
mod importing;
mod joined_lines;
mod joining;
mod listener;
mod made;
mod map_file;
mod others;
mod outcomes;
mod plaintext;
mod preamble;
mod reach;
mod reorder;
mod room;
mod sent;
mod shifted;
mod sink;
mod standing;
mod table;
mod tracked;
mod waiting;
mod ways;
mod words;

pub use addresses::{escaped, Addresses};
pub use bounds::Bounds;
pub use command::sorted;
pub use course::{Again, Courses, Held, Side, TcpCourse, Uncaptured, Why, NEVER};
pub use importing::{imported, ImportOptions};
pub use joined_lines::{is_of_joined, lines_of as joined_lines, said_by as joined_said, Said as JoinedLines};
pub use listener::{Files, Listener, Record, Sender, Written};
pub use made::MadeCapture;
pub use map_file::MapFile;
pub use others::{is_tunnel, Kind, Other};
pub use outcomes::{
    help_for, times_go_back, Back, Became, Behind, End, Fate, GapSaid, JoinedConnection, NotJoined, Older, Outcome,
    Read, Reordered, SideRead, Summary, Unopened,
};
pub use preamble::Preamble;
pub use sink::{Problem, Sink, Target};
pub use standing::RecordsOf;
pub use tls::{CLIENT, SERVER};
