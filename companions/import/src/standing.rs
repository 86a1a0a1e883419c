//! Which packets of an original stand for the records of what is made, in their order.

use std::collections::HashMap;
use std::fs::File;
use std::io::{self, ErrorKind, Write};

use captures::{pcap, Decoder, HeldSegment, Segment};

use crate::listener::{Written, HEADERS};

/// So many runs are kept at most, in a megabyte and a half.
const MOST_RUNS: usize = 1 << 16;

/// Records whose packets follow each other.
struct Run {
    packet: u64,
    record: u64,
    is_stray: bool,
}

pub struct Standing {
    header: pcap::Header,
    /// In the order of records, which need not be that of packets; and by packets.
    runs: Vec<Run>,
    /// How many records there are, and the packet of the last one.
    records: u64,
    last: u64,
    /// The last packets of connections, by their numbers, of strays, and of what opened connections.
    last_of: Vec<u64>,
    last_stray: u64,
    last_opening: u64,
}

/// Takes the next number in an order.
fn rises(last: &mut u64, next: u64) -> bool {
    std::mem::replace(last, next) < next
}

impl Standing {
    pub fn new(header: pcap::Header) -> Standing {
        let (runs, last_of) = (Vec::new(), Vec::new());
        Standing { header, runs, records: 0, last: 0, last_of, last_stray: 0, last_opening: 0 }
    }

    /// Takes the packet of the next record, unless h2audit would find another order in the original: that of the
    /// packets of a connection, of openings, and of strays.
    pub fn takes(&mut self, packet: u64, connection: Option<usize>) -> bool {
        if !self.is_in_order(packet, connection) {
            return false;
        }
        let is_stray = connection.is_none();
        let goes_on = self.last + 1 == packet && self.runs.last().map_or(false, |run| run.is_stray == is_stray);
        if !goes_on {
            if self.runs.len() >= MOST_RUNS {
                return false;
            }
            self.runs.push(Run { packet, record: self.records + 1, is_stray });
        }
        self.records += 1;
        self.last = packet;
        true
    }

    fn is_in_order(&mut self, packet: u64, connection: Option<usize>) -> bool {
        let connection = match connection {
            Some(connection) => connection,
            None => return rises(&mut self.last_stray, packet),
        };
        if self.last_of.len() <= connection {
            self.last_of.resize(connection + 1, 0);
        }
        let opens = self.last_of[connection] == 0;
        rises(&mut self.last_of[connection], packet) && (!opens || rises(&mut self.last_opening, packet))
    }

    /// The runs in the order of records, each with how many of these it has.
    fn counted(&self) -> impl Iterator<Item = (&Run, u64)> + '_ {
        let ends = self.runs.iter().skip(1).map(|run| run.record).chain([self.records + 1]);
        self.runs.iter().zip(ends).map(|(run, end)| (run, end - run.record))
    }

    /// Which records packets stand for.
    pub fn records(&self) -> RecordsOf {
        let mut runs: Vec<_> = self.counted().map(|(run, count)| (run.packet, count, run.record)).collect();
        runs.sort_unstable();
        RecordsOf(Some(runs))
    }

    /// Writes all records, as their packets stand in the file.
    pub fn copy(&self, file: File, to: &mut dyn Write) -> io::Result<()> {
        let mut packets = Packets::of(pcap::Records::of(file, self.header));
        let (mut writer, mut room) = (pcap::Writer::after_header(to), [0; HEADERS]);
        for (run, count) in self.counted() {
            for packet in run.packet..run.packet + count {
                packets.take(packet, |nanos, segment| {
                    let written = match run.is_stray {
                        true => Written::headers(segment, &mut room),
                        false => Written::whole(segment),
                    };
                    writer.write(nanos, written.original, written.parts)
                })?;
            }
        }
        Ok(())
    }
}

/// The records of an import by those of a report: packets, how many follow each other, and the record of the first;
/// none where the report has the import's.
pub struct RecordsOf(Option<Vec<(u64, u64, u64)>>);

impl RecordsOf {
    /// Where all are as the report has them.
    pub fn same() -> RecordsOf {
        RecordsOf(None)
    }

    pub fn of(&self, reported: u64) -> Option<u64> {
        let runs = match &self.0 {
            Some(runs) => runs,
            None => return Some(reported),
        };
        let at = runs.partition_point(|run| run.0 <= reported).checked_sub(1)?;
        let (packet, count, record) = runs[at];
        Some(reported - packet).filter(|behind| *behind < count).map(|behind| record + behind)
    }
}

/// Segments of a file by their packets, asked for nearly in their order.
struct Packets {
    records: pcap::Records,
    decoder: Decoder,
    /// Where the next one stands, and how many stand before that.
    place: u64,
    read: u64,
    /// Packets that were passed over, until they are asked for, with their times.
    passed: HashMap<u64, (i64, HeldSegment)>,
}

impl Packets {
    fn of(records: pcap::Records) -> Packets {
        let place = pcap::HEADER_LENGTH as u64;
        Packets { records, decoder: Decoder::default(), place, read: 0, passed: HashMap::new() }
    }

    fn take(&mut self, packet: u64, put: impl FnOnce(i64, &Segment<'_>) -> io::Result<()>) -> io::Result<()> {
        let Packets { records, decoder, place, read, passed } = self;
        while *read < packet {
            let (found, behind) = records.at(*place)?.ok_or(ErrorKind::UnexpectedEof)?;
            (*place, *read) = (behind, *read + 1);
            match decoder.segment(&found) {
                Ok(Ok(segment)) if *read == packet => return put(found.nanos, &segment),
                Ok(Ok(segment)) => drop(passed.insert(*read, (found.nanos, segment.held()))),
                _ => {}
            }
        }
        let (nanos, held) = passed.remove(&packet).ok_or(ErrorKind::InvalidData)?;
        put(nanos, &held.segment())
    }
}
