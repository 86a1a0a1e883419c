//! A temporary file without a name, which holds plaintext: it goes with the process, however that ends.

use std::fs::File;
use std::io::{self, BufWriter, IntoInnerError, Seek, SeekFrom, Write};
use std::os::unix::io::AsRawFd;
use std::path::PathBuf;
use std::{env, process};

use crate::failure::{io_reason, Failure};
use crate::messages::printable;
use crate::output::BUFFER;

/// It is written first, and then read by other programs, or by this one.
pub struct PrivateFile {
    writer: BufWriter<File>,
}

impl PrivateFile {
    pub fn new() -> Result<PrivateFile, Failure> {
        PrivateFile::begin().map_err(|error| temporary_failure(&error))
    }

    /// One whose failures are named by [`temporary_failure`].
    pub fn begin() -> io::Result<PrivateFile> {
        tempfile::tempfile().map(|file| PrivateFile { writer: BufWriter::with_capacity(BUFFER, file) })
    }

    /// What was written, to be read.
    pub fn read_from_the_beginning(self) -> io::Result<File> {
        let mut file = self.writer.into_inner().map_err(IntoInnerError::into_error)?;
        file.rewind()?;
        Ok(file)
    }

    /// Takes back what was written.
    pub fn begin_anew(&mut self) -> io::Result<()> {
        self.writer.seek(SeekFrom::Start(0))?;
        self.writer.get_ref().set_len(0)
    }

    /// A path by which another program opens what was written, while this process lives.
    pub fn path(&mut self) -> Result<PathBuf, Failure> {
        self.writer.flush().map_err(|error| temporary_failure(&error))?;
        Ok(PathBuf::from(format!("/proc/{}/fd/{}", process::id(), self.writer.get_ref().as_raw_fd())))
    }
}

impl Write for PrivateFile {
    fn write(&mut self, bytes: &[u8]) -> io::Result<usize> {
        self.writer.write(bytes)
    }

    fn write_all(&mut self, bytes: &[u8]) -> io::Result<()> {
        self.writer.write_all(bytes)
    }

    fn flush(&mut self) -> io::Result<()> {
        self.writer.flush()
    }
}

/// The folder of temporary files is full, or none can be made there.
pub fn temporary_failure(error: &io::Error) -> Failure {
    if error.kind() == io::ErrorKind::OutOfMemory {
        return Failure::Memory;
    }
    let folder = env::temp_dir();
    Failure::Io(format!("{}, the folder of temporary files (TMPDIR): {}", printable(folder), io_reason(error)))
}
