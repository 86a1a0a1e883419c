//! Takes the packets of the capture that is made, and numbers them. It keeps its first error, so that nothing that
//! emits has to hand on errors of files.

use std::ffi::OsStr;
use std::fs::File;
use std::io::{self, Write};

use captures::{pcap, Arrival, Error, Packet, Reader, Segment, Source, RAW};
use programs::{temporary_failure, Failure, Output, PrivateFile, Progress};

use crate::listener::{Listener, Record, Sender, Written};

/// Where the capture that is made goes.
pub trait Target: Write {
    /// Takes back what was written, to a file that is no other's yet.
    fn begin_anew(&mut self) -> io::Result<()>;

    /// Names it as what could not be written.
    fn failure(&self, error: &io::Error) -> Failure;

    /// The original, from its beginning, where it may stand for what is made.
    fn original(&mut self) -> io::Result<Option<File>> {
        Ok(None)
    }

    /// Begins with an original that has this header.
    fn begin_original(&mut self, _header: pcap::Header) {}

    /// Whether a record need not be written, as the original has it: its packet, and its connection.
    fn spares(&mut self, _packet: u64, _connection: Option<usize>) -> bool {
        false
    }

    /// Writes all from here on, behind what was spared.
    fn depart(&mut self) -> io::Result<()> {
        Ok(())
    }
}

impl Target for Output {
    fn begin_anew(&mut self) -> io::Result<()> {
        Output::begin_anew(self)
    }

    fn failure(&self, error: &io::Error) -> Failure {
        Output::failure(self, error)
    }
}

/// What is made goes nowhere, where nobody reads it.
impl Target for io::Sink {
    fn begin_anew(&mut self) -> io::Result<()> {
        Ok(())
    }

    fn failure(&self, error: &io::Error) -> Failure {
        temporary_failure(error)
    }
}

impl Target for PrivateFile {
    fn begin_anew(&mut self) -> io::Result<()> {
        PrivateFile::begin_anew(self)
    }

    fn failure(&self, error: &io::Error) -> Failure {
        temporary_failure(error)
    }
}

/// Why the capture cannot be made.
pub enum Problem {
    /// A time that classic pcap cannot say.
    BadTime,
    Failed(Failure),
}

pub struct Sink<'a> {
    writer: pcap::Writer<&'a mut dyn Target>,
    pub listener: &'a mut dyn Listener,
    count: u64,
    /// Which connections have an opening that is written.
    opened: Vec<bool>,
    problem: Option<Problem>,
    /// Whether what is written now is made up.
    pub(crate) is_made: bool,
    /// Whether the original stands for all that was made so far.
    is_spared: bool,
}

impl<'a> Sink<'a> {
    pub fn new(target: &'a mut dyn Target, listener: &'a mut dyn Listener) -> Result<Sink<'a>, Failure> {
        let written = pcap::write_header(target, RAW);
        written.map_err(|error| target.failure(&error))?;
        let writer = pcap::Writer::after_header(target);
        Ok(Sink { writer, listener, count: 0, opened: Vec::new(), problem: None, is_made: false, is_spared: false })
    }

    /// What is read of a file.
    pub(crate) fn source(&mut self, path: &OsStr) -> Result<Source, Error> {
        match self.writer.get_mut().original()? {
            Some(file) => {
                self.is_spared = true;
                Source::of_file(file, Progress::add)
            }
            None => Source::open_counted(path, Progress::add),
        }
    }

    /// A file begins, which is the original if there is one.
    pub(crate) fn begin_original(&mut self, reader: &Reader) {
        let header = match reader {
            Reader::Pcap(pcap) if self.is_spared && reader.next_place().is_some() => Some(pcap.header()),
            _ => None,
        };
        let audited = header.filter(|header| captures::is_audited(header.link));
        self.is_spared = audited.is_some();
        audited.into_iter().for_each(|header| self.writer.get_mut().begin_original(header));
    }

    /// Looks at a packet in which this segment was found, or none.
    #[inline]
    pub(crate) fn look_at(&mut self, packet: &Packet<'_>, segment: Option<&Segment<'_>>) {
        if self.is_spared && !segment.map_or(packet.link.is_some(), |segment| segment.stands_in(packet)) {
            self.depart();
        }
    }

    /// All packets were read, which had so many segments.
    pub(crate) fn look_at_count(&mut self, segments: u64) {
        if self.is_spared && self.count != segments {
            self.depart();
        }
    }

    /// From here on the original no longer stands for what is made.
    #[inline(never)]
    pub(crate) fn depart(&mut self) {
        if std::mem::take(&mut self.is_spared) {
            let target = self.writer.get_mut();
            if let Err(error) = target.depart() {
                self.problem.get_or_insert(Problem::Failed(target.failure(&error)));
            }
        }
    }

    /// Takes back all that was written.
    pub fn begin_anew(&mut self) -> Result<(), Failure> {
        let target = self.writer.get_mut();
        let begun = target.begin_anew().and_then(|()| pcap::write_header(*target, RAW));
        begun.map_err(|error| target.failure(&error))?;
        self.count = 0;
        self.is_spared = false;
        self.opened.clear();
        self.listener.begin_anew()
    }

    /// Writes a segment of a connection, or of none.
    pub fn emit(&mut self, arrival: Arrival, sender: Option<Sender>, segment: Written<'_>) {
        if self.may_write(arrival) {
            let written = match self.is_spared && self.spares(arrival, sender, &segment) {
                true => Ok(()),
                false => self.writer.write(arrival.nanos, segment.original, segment.parts),
            };
            self.emitted(written, arrival, sender, segment);
        }
    }

    /// Leaves out a segment, whose time must be one that can be written all the same.
    pub fn leave_out(&mut self, arrival: Arrival) {
        self.may_write(arrival);
    }

    /// Whether a record need not be written. A stray has no payload, and h2audit only counts its packets.
    fn spares(&mut self, arrival: Arrival, sender: Option<Sender>, segment: &Written<'_>) -> bool {
        let is_as_it_stands = !self.is_made && (segment.is_whole || sender.is_none());
        let connection = sender.map(|sender| sender.connection);
        let is_spared = is_as_it_stands && self.writer.get_mut().spares(arrival.packet, connection);
        if !is_spared {
            self.depart();
        }
        is_spared
    }

    #[inline]
    fn may_write(&mut self, arrival: Arrival) -> bool {
        if self.problem.is_none() && !pcap::is_time(arrival.nanos) {
            self.problem = Some(Problem::BadTime);
        }
        self.problem.is_none()
    }

    #[inline]
    fn emitted(&mut self, written: io::Result<()>, arrival: Arrival, sender: Option<Sender>, segment: Written<'_>) {
        self.count += 1;
        if let Err(error) = written {
            self.problem = Some(Problem::Failed(self.writer.get_mut().failure(&error)));
        }
        let is_opening = sender.map_or(false, |sender| self.opens(sender.connection));
        let is_made = self.is_made;
        self.listener.record(&Record { number: self.count, arrival, sender, is_opening, is_made, segment });
    }

    /// Whether nothing of a connection was written before. Its opening comes first.
    fn opens(&mut self, connection: usize) -> bool {
        if self.opened.len() <= connection {
            self.opened.resize(connection + 1, false);
        }
        !std::mem::replace(&mut self.opened[connection], true)
    }

    /// Whether the opening of a connection is written.
    pub fn has_opening(&self, connection: usize) -> bool {
        self.opened.get(connection).copied().unwrap_or(false)
    }

    /// Whether something went wrong with the capture.
    pub fn has_problem(&self) -> bool {
        self.problem.is_some()
    }

    /// What went wrong first, of the capture and of what listens.
    pub fn take_problem(&mut self) -> Option<Problem> {
        self.problem.take().or_else(|| self.listener.take_failure().map(Problem::Failed))
    }
}
