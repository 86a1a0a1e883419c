//! The capture that h2audit audits: what an import makes, or the original in its place.
//!
//! If the original is one plain pcap file whose segments go through as they stand, h2audit says of it what it says of
//! what is made, with packets in the place of records: then nothing is written. From the first record on that differs,
//! all is written, behind a copy of what was spared.

use std::ffi::OsString;
use std::fs::{self, File};
use std::io::{self, Seek, Write};
use std::os::unix::fs::MetadataExt;
use std::os::unix::io::AsRawFd;
use std::path::PathBuf;
use std::process;

use captures::{pcap, STANDARD_INPUT};
use programs::{temporary_failure, Failure, PrivateFile};

use crate::sink::Target;
use crate::standing::{RecordsOf, Standing};

/// h2audit reads no larger captures.
const MOST_AUDITED: u64 = (1 << 31) - 1;

pub struct MadeCapture {
    written: PrivateFile,
    original: Option<Original>,
    /// What of it was spared, as long as it stands for all.
    standing: Option<Standing>,
    /// Whether what was copied of it may be something else than what was read.
    is_doubtful: bool,
}

/// A file that is read, and what tells whether it was changed meanwhile.
struct Original {
    file: File,
    state: State,
}

/// Length, and the time of the last change.
type State = (u64, i64, i64);

impl Original {
    fn open(path: &OsString) -> io::Result<Option<Original>> {
        if !fs::metadata(path)?.is_file() {
            return Ok(None); // a pipe is opened once
        }
        let file = File::open(path)?;
        let is_file = file.metadata()?.is_file();
        let state = state_of(&file)?;
        Ok(Some(Original { file, state }).filter(|_| is_file && state.0 <= MOST_AUDITED))
    }

    fn has_changed(&self) -> bool {
        state_of(&self.file).map_or(true, |state| state != self.state)
    }
}

fn state_of(file: &File) -> io::Result<State> {
    file.metadata().map(|found| (found.len(), found.mtime(), found.mtime_nsec()))
}

impl MadeCapture {
    /// Makes a capture of these files, in whose place the original stands if it may.
    pub fn new(files: &[OsString], may_stand: bool) -> Result<MadeCapture, Failure> {
        let original = match files {
            // What cannot be opened is named where it is read.
            [path] if may_stand && path != STANDARD_INPUT => Original::open(path).unwrap_or(None),
            _ => None,
        };
        Ok(MadeCapture { written: PrivateFile::new()?, original, standing: None, is_doubtful: false })
    }

    /// Whether the original is audited: then the records of the report are its packets.
    pub fn is_original(&self) -> bool {
        self.standing.is_some()
    }

    /// The records of which an import told, by those of the report.
    pub fn records(&self) -> RecordsOf {
        self.standing.as_ref().map_or_else(RecordsOf::same, Standing::records)
    }

    /// A path by which another program opens it, while this process lives.
    pub fn path(&mut self) -> Result<PathBuf, Failure> {
        match (&self.standing, &self.original) {
            (Some(_), Some(original)) => {
                Ok(PathBuf::from(format!("/proc/{}/fd/{}", process::id(), original.file.as_raw_fd())))
            }
            _ => self.written.path(),
        }
    }

    /// Whether the file was changed, so that what was read of it need not be what is audited. That is known once
    /// h2audit has said something, which it does when it has read all.
    pub fn has_changed(&self) -> bool {
        let is_changed = self.original.as_ref().map_or(false, Original::has_changed);
        self.is_doubtful || self.standing.is_some() && is_changed
    }
}

impl Write for MadeCapture {
    fn write(&mut self, bytes: &[u8]) -> io::Result<usize> {
        self.written.write(bytes)
    }

    fn write_all(&mut self, bytes: &[u8]) -> io::Result<()> {
        self.written.write_all(bytes)
    }

    fn flush(&mut self) -> io::Result<()> {
        self.written.flush()
    }
}

impl Target for MadeCapture {
    fn begin_anew(&mut self) -> io::Result<()> {
        self.standing = None;
        self.written.begin_anew()
    }

    fn failure(&self, error: &io::Error) -> Failure {
        temporary_failure(error)
    }

    fn original(&mut self) -> io::Result<Option<File>> {
        self.original
            .as_mut()
            .map(|original| original.file.rewind().and_then(|()| original.file.try_clone()))
            .transpose()
    }

    fn begin_original(&mut self, header: pcap::Header) {
        self.standing = Some(Standing::new(header));
    }

    fn spares(&mut self, packet: u64, connection: Option<usize>) -> bool {
        self.standing.as_mut().map_or(false, |standing| standing.takes(packet, connection))
    }

    fn depart(&mut self) -> io::Result<()> {
        if let (Some(standing), Some(original)) = (self.standing.take(), &self.original) {
            let copied = original.file.try_clone().and_then(|file| standing.copy(file, &mut self.written));
            self.is_doubtful = original.has_changed();
            return if self.is_doubtful { Ok(()) } else { copied }; // all is done anew then
        }
        Ok(())
    }
}
