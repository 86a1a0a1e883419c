//! Captures as people have them: packets of pcap and pcapng files, as they stand or compressed, and the TCP segments in
//! them. All programs beside h2audit read captures by it; h2audit-merge, which looks for single records, and
//! h2audit-comment, which copies them, go over the records of a pcap file by themselves.
//!
//! # To read a capture
//!
//! [`Source`] has the bytes of a file, unpacked (gzip, zstd, xz, bzip2). [`Reader`] gives what they hold, whichever of
//! the two formats it is:
//!
//! ```no_run
//! use captures::{Item, Reader, Source};
//! # fn main() -> Result<(), captures::Error> {
//! let mut reader = Reader::new(Source::open("a.pcapng".as_ref())?)?;
//! while let Some(item) = reader.next()? {
//!     match item {
//!         Item::Packet(packet) => println!("{} ns: {} bytes", packet.nanos, packet.data.len()),
//!         Item::Secrets(_) => println!("a key log stands in the capture"),
//!         Item::Cut => println!("the file ends within a packet"),
//!     }
//! }
//! # Ok(())
//! # }
//! ```
//!
//! Each item that is a packet has the number that Wireshark's `frame.number` has, counted from 1. What an item holds is
//! borrowed from the source's window until the next one is asked for: nothing is copied, and memory stays bounded by
//! the largest packet. Memory grows only as bytes come, whatever a length in a file says.
//!
//! [`pcap::Records`] finds records of a pcap file once more, by where they stood.
//!
//! # To copy a capture
//!
//! [`pcap::Reader`] and [`pcapng::Blocks`] give the records and blocks as they stand, [`pcapng::is_numbered`] says
//! which blocks Wireshark numbers, and [`pcapng::Clock`] makes nanoseconds of an interface's time. [`pcap::Writer`],
//! [`pcapng::put_block`] and [`pcapng::put_option`] write.
//!
//! # To find segments
//!
//! [`Decoder`] makes a TCP [`Segment`] of a packet, or says why there is none ([`PassedOver`]); segments of IPv6 become
//! ones of IPv4, between stand-ins for their addresses. [`placed`] says where the bytes of a segment stand among those
//! of its side, and [`Flow`] puts them in order.
//!
//! The rules are those of h2audit (docs/AUDIT_RULES.md, 2 and 3).

#![forbid(unsafe_code)]

mod bytes;
mod dropped;
mod error;
mod file_view;
mod flows;
mod gzip;
mod internet;
mod link_layers;
mod made;
mod packets;
pub mod pcap;
pub mod pcapng;
mod refusal;
mod source;
mod stand_ins;

pub use bytes::Order;
pub use error::Error;
pub use file_view::FileView;
pub use flows::{offset_of, placed, Arrival, Flow, END_OF_OFFSETS, MOST_HELD};
pub use internet::{flags, swapped, Decoder, Ends, Fragment, HeldSegment, InIpv4, PassedOver, Segment};
pub use link_layers::{is_audited, is_read, RAW};
pub use made::{made_headers, MADE_HEADERS};
pub use packets::{Format, Item, Packet, Reader, MOST_CAPTURED};
pub use refusal::Refusal;
pub use source::{Source, STANDARD_INPUT};
