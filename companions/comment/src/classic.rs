//! Writes a classic pcap capture as pcapng: one section, one interface, and an Enhanced Packet Block for each record.

use std::io::Write;

use captures::pcap::{Header, RECORD_HEADER_LENGTH};
use captures::{pcapng, Order, Source};

use crate::comments::Comments;
use crate::ended::Ended;
use crate::options::put_with_comments;
use crate::Copied;

/// Wireshark reads no longer packet of any kind.
const LONGEST_PACKET: usize = 128 << 20;
const NANOS: u64 = 1_000_000_000;

/// What stands before the data of a packet, and what its numbers are.
struct Record {
    time: u64,
    nanos: i64,
    captured: usize,
    original: u32,
}

/// Writes each record.
pub fn copy(mut source: Source, comments: &mut Comments, out: &mut impl Write) -> Result<Copied, Ended> {
    let header = Header::read(&mut source)?;
    put_heading(&header, out)?;
    let (packets, is_cut) = put_packets(&header, &mut source, comments, out)?;
    Ok(Copied { packets, is_cut: is_cut || source.is_cut(), has_bytes_behind: source.has_bytes_behind() })
}

/// Answers how many records there are, and whether the end cuts one.
fn put_packets(
    header: &Header,
    source: &mut Source,
    comments: &mut Comments,
    out: &mut impl Write,
) -> Result<(u64, bool), Ended> {
    let mut number = 0;
    loop {
        let head = source.fill(RECORD_HEADER_LENGTH)?;
        if head.len() < RECORD_HEADER_LENGTH {
            return Ok((number, !head.is_empty()));
        }
        let record = record_of(header, head);
        let size = RECORD_HEADER_LENGTH + record.captured;
        if record.captured > LONGEST_PACKET {
            return match source.skip(size as u64)? < size as u64 {
                true => Ok((number, true)),
                false => Err(Ended::refused("packet-too-long")),
            };
        }
        let whole = source.fill(size)?;
        if whole.len() < size {
            return Ok((number, true));
        }
        number += 1;
        let mut options = Vec::new();
        if comments.has(number) {
            let found = comments.of(number, Some(record.nanos))?;
            put_with_comments(&mut options, header.order, &[], &found)?;
        }
        put_packet(header.order, &record, &whole[RECORD_HEADER_LENGTH..], &options, out)?;
        source.consume(size);
    }
}

fn put_heading(header: &Header, out: &mut impl Write) -> Result<(), Ended> {
    let order = header.order;
    pcapng::put_block(out, order, pcapng::SECTION_HEADER, &[&pcapng::section_body(order)])?;
    let mut interface = Vec::new();
    interface.extend(order.put_u16(header.link));
    interface.extend([0; 2]);
    interface.extend(order.put_u32(header.snapshot_length));
    let digits = if header.unit == 1 { 9 } else { 6 };
    pcapng::put_option(&mut interface, order, pcapng::TIME_RESOLUTION, &[digits]);
    pcapng::put_option(&mut interface, order, pcapng::END_OF_OPTIONS, b"");
    pcapng::put_block(out, order, pcapng::INTERFACE, &[&interface])?;
    Ok(())
}

fn record_of(header: &Header, head: &[u8]) -> Record {
    let order = header.order;
    let (seconds, fraction) = (u64::from(order.u32(head, 0)), u64::from(order.u32(head, 4)));
    let unit = u64::from(header.unit);
    Record {
        time: seconds * (NANOS / unit) + fraction,
        nanos: (seconds * NANOS + fraction * unit) as i64,
        captured: order.u32(head, 8) as usize,
        original: order.u32(head, 12),
    }
}

fn put_packet(order: Order, record: &Record, data: &[u8], options: &[u8], out: &mut impl Write) -> Result<(), Ended> {
    // 0 is the number of the only interface.
    let numbers = [0, (record.time >> 32) as u32, record.time as u32, data.len() as u32, record.original];
    let head: Vec<u8> = numbers.iter().flat_map(|number| order.put_u32(*number)).collect();
    let body = [&head[..], data, pcapng::padding_of(data.len()), options];
    Ok(pcapng::put_block(out, order, pcapng::ENHANCED_PACKET, &body)?)
}
