//! The TCP segments of a part, by the rules of docs/AUDIT_RULES.md for packets.

use std::path::Path;

use captures::pcap::{Header, RECORD_HEADER_LENGTH};
use captures::{Decoder, Ends, Error, Packet, Source, RAW};
use programs::{printable, Failure};

use crate::split_folder::failed;

/// More bytes than a datagram has, with what stands before it: whatever is behind them decides nothing.
const FRONT: usize = 1 << 17;

/// A walk over the records of a part, forward.
pub struct PartSegments {
    source: Source,
    header: Header,
    decoder: Decoder,
    record: u64,
}

impl PartSegments {
    /// Opens the part, which h2audit has read before.
    pub fn open(path: &Path) -> Result<PartSegments, Failure> {
        let opened = Source::open(path.as_os_str()).and_then(|mut source| {
            let header = Header::read(&mut source)?;
            Ok(PartSegments { source, header, decoder: Decoder::default(), record: 0 })
        });
        opened.map_err(|error| match error {
            Error::Io(error) => failed(path, &error),
            Error::Refused(_) => Failure::Refused(format!("{} has no file header", printable(path))),
        })
    }

    /// The next record that holds a segment between these ends, by its number; none where there is none.
    pub fn find(&mut self, ends: Ends) -> Result<Option<u64>, Error> {
        let order = self.header.order;
        loop {
            let head = self.source.fill(RECORD_HEADER_LENGTH)?;
            if head.len() < RECORD_HEADER_LENGTH {
                return Ok(None);
            }
            let (captured, original) = (order.u32(head, 8) as usize, order.u32(head, 12));
            let size = RECORD_HEADER_LENGTH + captured.min(FRONT);
            if self.source.fill(size)?.len() < size {
                return Ok(None);
            }
            self.record += 1;
            let data = &self.source.view(size)[RECORD_HEADER_LENGTH..];
            let found = match datagram(self.header.link, data, original) {
                Some(packet) => self.decoder.segment(&packet)?.ok().map(|segment| segment.ends),
                None => None,
            };
            self.source.skip((RECORD_HEADER_LENGTH + captured) as u64)?;
            if found == Some(ends) {
                return Ok(Some(self.record));
            }
        }
    }
}

/// The IPv4 datagram of a packet. h2audit reads fewer link layers than there are, so it is found here by its rules.
fn datagram(link: u16, data: &[u8], original: u32) -> Option<Packet<'_>> {
    let start = match link {
        RAW => 0,
        _ if data.get(12..14)? == [0x81, 0x00] => 18,
        _ => 14,
    };
    let is_ipv4 = link == RAW || data.get(start - 2..start)? == [0x08, 0x00];
    if !is_ipv4 || data.get(start)? >> 4 != 4 {
        return None;
    }
    Some(Packet { nanos: 0, link: Some(RAW), data: &data[start..], original: original.saturating_sub(start as u32) })
}
