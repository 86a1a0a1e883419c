//! Writes the map of a capture that is made (docs/MAP.md).

use std::ffi::OsStr;
use std::io::{self, Write};
use std::net::Ipv4Addr;

use programs::{Failure, Output};

use crate::addresses::{escaped_path, Addresses};
use crate::joined_lines::{line_of_gap, lines_of};
use crate::listener::{Files, Listener, Record};
use crate::others::Kind;
use crate::outcomes::{Became, Fate, Outcome, Read, Reordered, SideRead, Summary};

/// The first line of a map without, and with, connections that are joined.
const FIRST_LINES: [&str; 2] = ["h2audit-map 1", "h2audit-map 2"];

/// The lines of a map, written as they become known; without a file they go nowhere.
pub struct MapFile<'a> {
    out: Option<&'a mut Output>,
    is_joined: bool,
    files: Files,
    addresses: Addresses,
    failure: Option<Failure>,
    /// Where a line is put together.
    line: Vec<u8>,
}

impl<'a> MapFile<'a> {
    /// One that may tell of connections that are joined.
    pub fn new(out: Option<&'a mut Output>, is_joined: bool) -> MapFile<'a> {
        let (files, addresses) = (Files::default(), Addresses::default());
        let mut map = MapFile { out, is_joined, files, addresses, failure: None, line: Vec::new() };
        map.line(format_args!("{}", FIRST_LINES[usize::from(is_joined)]));
        map
    }

    fn line(&mut self, text: std::fmt::Arguments<'_>) {
        self.written(|out| out.write_fmt(text).and_then(|()| out.write_all(b"\n")));
    }

    fn written(&mut self, write: impl FnOnce(&mut Output) -> io::Result<()>) {
        if let Some(out) = self.out.as_mut().filter(|_| self.failure.is_none()) {
            if let Err(error) = write(out) {
                self.failure = Some(out.failure(&error));
            }
        }
    }

    fn connection(&mut self, outcome: &Outcome) {
        let (client, server) = self.addresses.endpoints(&outcome.ends);
        let (file, packet) = self.files.place(outcome.opening);
        let said = outcome.became.words();
        self.line(format_args!("connection client {client} server {server} file {file} packet {packet} {said}"));
        if let Became::Read(read) = &outcome.became {
            self.sides(read);
        }
        if let Some(preamble) = outcome.preamble {
            let [client, server] = preamble.lengths;
            self.line(format_args!("behind {} client {client} server {server}", preamble.kind.name()));
        }
        if outcome.fragments > 0 {
            self.line(format_args!("fragments {}", outcome.fragments));
        }
        let (file, packet) = self.files.place(outcome.last.packet);
        self.line(format_args!("last file {file} packet {packet} time {}", outcome.last.nanos));
    }

    fn sides(&mut self, read: &Read) {
        self.side("client", &read.client);
        self.side("server", &read.server);
        let (accepted, rejected) = (read.early_records, read.rejected_records);
        if accepted > 0 || rejected > 0 {
            self.line(format_args!("early-data accepted {accepted} rejected {rejected}"));
        }
        if let Some([client, server]) = read.skipped {
            self.line(format_args!("skipped client {client} server {server}"));
        }
    }

    fn side(&mut self, name: &str, side: &SideRead) {
        let SideRead { bytes, tail, end, .. } = side;
        let gap = if side.has_gap { bytes.to_string() } else { "none".to_string() };
        self.line(format_args!("flow {name} bytes {bytes} gap {gap} tail {tail} end {end}"));
    }
}

impl Listener for MapFile<'_> {
    fn begin_file(&mut self, path: &OsStr, packets_before: u64) {
        self.files.begin(packets_before);
        self.line(format_args!("file {} {}", self.files.count(), escaped_path(path)));
    }

    fn address(&mut self, stand_in: [u8; 4], original: [u8; 16]) {
        let original = self.addresses.add(stand_in, original).to_string();
        self.line(format_args!("address {} {original}", Ipv4Addr::from(stand_in)));
    }

    fn record(&mut self, record: &Record<'_>) {
        if self.out.is_none() {
            return;
        }
        let (file, packet) = self.files.place(record.arrival.packet);
        let mut digits = [itoa::Buffer::new(), itoa::Buffer::new(), itoa::Buffer::new()];
        let [first, second, third] = &mut digits;
        let number = first.format(record.number);
        let word = if record.is_made { "made " } else { "record " };
        let parts = [word, number, " file ", second.format(file), " packet ", third.format(packet), "\n"];
        let mut line = std::mem::take(&mut self.line);
        line.clear();
        parts.iter().for_each(|part| line.extend_from_slice(part.as_bytes()));
        self.written(|out| out.write_all(&line));
        self.line = line;
    }

    fn passed(&mut self, packet: u64, why: &str) {
        let (file, packet) = self.files.place(packet);
        self.line(format_args!("passed file {file} packet {packet} {why}"));
    }

    fn finish(&mut self, summary: &Summary) {
        self.line(format_args!("{}", summary.counts.line().trim_end()));
        if let Some(Reordered { packets, nanos, left }) = summary.reordered {
            self.line(format_args!("reordered packets {packets} nanos {nanos} left {left}"));
        }
        if let Some(back) = &summary.back {
            let (file, packet) = self.files.place(back.packet());
            let (packets, nanos) = (back.packets, back.nanos);
            self.line(format_args!("back file {file} packet {packet} packets {packets} nanos {nanos}"));
        }
        for other in &summary.others {
            let (name, packets) = (other.kind.name(), other.packets);
            match other.kind {
                Kind::EtherType(kind) => {
                    self.line(format_args!("other ethertype 0x{kind:04x} {name} packets {packets}"))
                }
                Kind::Protocol(number) => self.line(format_args!("other protocol {number} {name} packets {packets}")),
                Kind::Udp(port) => self.line(format_args!("other udp-port {port} {name} packets {packets}")),
            }
        }
        for pair in &summary.unopened {
            let (source, target) = self.addresses.endpoints(&pair.ends);
            let (file, packet) = self.files.place(pair.first.packet);
            let segments = pair.segments;
            self.line(format_args!("unopened {source} {target} file {file} packet {packet} segments {segments}"));
            match pair.fate {
                Fate::NotAsked => {}
                Fate::Joined(connection) => self.line(format_args!("joined-as {}", connection + 1)),
                Fate::Unjoined(why) => self.line(format_args!("unjoined {why}")),
            }
        }
        let mut joined = summary.joined.iter().peekable();
        let mut gaps = summary.gaps.iter().peekable();
        for (number, outcome) in summary.outcomes.iter().enumerate() {
            self.connection(outcome);
            if let Some(one) = joined.next_if(|one| one.connection == number) {
                lines_of(one).iter().for_each(|line| self.line(format_args!("{line}")));
            }
            while let Some(gap) = gaps.next_if(|gap| gap.connection == number) {
                let place = self.files.place(gap.first.packet);
                self.line(format_args!("{}", line_of_gap(gap, place)));
            }
        }
    }

    fn begin_anew(&mut self) -> Result<(), Failure> {
        if let Some(out) = &mut self.out {
            out.begin_anew().map_err(|error| out.failure(&error))?;
        }
        *self = MapFile::new(self.out.take(), self.is_joined);
        Ok(())
    }

    fn take_failure(&mut self) -> Option<Failure> {
        self.failure.take()
    }
}
