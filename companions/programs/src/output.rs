//! Writes what a program makes to a file, which is there only once it is whole; no error and no signal leaves a part.

use std::fs::{self, File, OpenOptions, Permissions};
use std::io::{self, BufWriter, Seek, Write};
use std::os::unix::fs::{MetadataExt, PermissionsExt};
use std::os::unix::io::AsFd;
use std::path::{Path, PathBuf};

use crate::failure::Failure;
use crate::process;
use crate::progress::leave_terminal;
use crate::signals::{Cleanup, Guard};

/// So many bytes are written at a time.
pub const BUFFER: usize = 1 << 17;
/// How the name of a file begins before it is whole.
const HIDDEN: &str = ".h2audit-";

/// What is written: standard output for `-`, a pipe or a device that is there, or a file.
pub struct Output {
    writer: BufWriter<File>,
    name: PathBuf,
    replaced: Option<Replaced>,
}

/// A file beside the one whose place it takes once it is whole. Until then its owner alone may read it.
struct Replaced {
    guard: Guard,
    target: PathBuf,
    mode: u32,
}

impl Output {
    /// Begins the file of this name.
    pub fn begin(name: &Path) -> Result<Output, Failure> {
        Output::of(name).map_err(|error| failure_of(name, &error))
    }

    /// Standard output, without the buffer of lines that Rust puts before it.
    pub fn standard() -> Result<Output, Failure> {
        Output::begin(Path::new("-"))
    }

    fn of(name: &Path) -> io::Result<Output> {
        let (file, replaced) = if is_standard(name) {
            leave_terminal();
            (File::from(io::stdout().as_fd().try_clone_to_owned()?), None)
        } else if is_special(name)? {
            (OpenOptions::new().write(true).open(name)?, None)
        } else {
            let (file, replaced) = replaced(name)?;
            (file, Some(replaced))
        };
        Ok(Output { writer: BufWriter::with_capacity(BUFFER, file), name: name.to_path_buf(), replaced })
    }

    /// Begins a file that nobody but its owner may read, also once it is whole.
    pub fn begin_private(name: &Path) -> Result<Output, Failure> {
        let mut output = Output::begin(name)?;
        if let Some(replaced) = &mut output.replaced {
            replaced.mode = 0o600;
        }
        Ok(output)
    }

    /// Takes back what was written, to a file that is not there yet.
    pub fn begin_anew(&mut self) -> io::Result<()> {
        self.writer.flush()?;
        let file = self.writer.get_mut();
        file.set_len(0).and_then(|()| file.rewind())
    }

    /// Gives the whole file its name.
    pub fn finish(mut self) -> Result<(), Failure> {
        let done = self.writer.flush().and_then(|()| match self.replaced.take() {
            Some(whole) => whole.take_place(),
            None => Ok(()),
        });
        done.map_err(|error| self.failure(&error))
    }

    /// Names the output as what could not be written.
    pub fn failure(&self, error: &io::Error) -> Failure {
        failure_of(&self.name, error)
    }
}

impl Replaced {
    fn take_place(self) -> io::Result<()> {
        let Replaced { guard, target, mode } = self;
        guard.settle(|half| match half {
            Cleanup::File(path) => {
                fs::set_permissions(&*path, Permissions::from_mode(mode))?;
                fs::rename(path, target)
            }
            _ => Ok(()),
        })
    }
}

impl Write for Output {
    fn write(&mut self, bytes: &[u8]) -> io::Result<usize> {
        self.writer.write(bytes)
    }

    fn write_all(&mut self, bytes: &[u8]) -> io::Result<()> {
        self.writer.write_all(bytes)
    }

    fn flush(&mut self) -> io::Result<()> {
        self.writer.flush()
    }
}

fn is_standard(name: &Path) -> bool {
    name.as_os_str() == "-"
}

fn failure_of(name: &Path, error: &io::Error) -> Failure {
    match is_standard(name) {
        true => Failure::of_output(error),
        false => Failure::of_file(name, error),
    }
}

/// Whether a path names something that is there and is no file, as a pipe or a device.
pub fn is_special(path: &Path) -> io::Result<bool> {
    match fs::metadata(path) {
        Ok(found) => Ok(!found.is_file()),
        Err(error) if error.kind() == io::ErrorKind::NotFound => Ok(false),
        Err(error) => Err(error),
    }
}

fn replaced(name: &Path) -> io::Result<(File, Replaced)> {
    let target = real_path(name)?;
    let folder = target.parent().unwrap_or_else(|| Path::new("/"));
    let mode = mode_of(&target);
    let (guard, file) = Guard::making(|| {
        let beside = tempfile::Builder::new().prefix(HIDDEN).tempfile_in(folder)?;
        let (file, path) = beside.keep().map_err(|kept| kept.error)?;
        Ok((Cleanup::File(path), file))
    })?;
    Ok((file, Replaced { guard, target, mode }))
}

/// Where a path leads, also if nothing is there yet.
fn real_path(name: &Path) -> io::Result<PathBuf> {
    match fs::canonicalize(name) {
        Err(error) if error.kind() == io::ErrorKind::NotFound => {}
        found => return found,
    }
    if let Ok(link) = fs::read_link(name) {
        return real_path(&name.parent().unwrap_or_else(|| Path::new("")).join(link));
    }
    let file = name.file_name().ok_or_else(|| io::Error::from(io::ErrorKind::NotFound))?;
    let folder = name.parent().filter(|folder| !folder.as_os_str().is_empty()).unwrap_or_else(|| Path::new("."));
    Ok(fs::canonicalize(folder)?.join(file))
}

/// The rights of the file that is there; else those that a new file gets.
fn mode_of(target: &Path) -> u32 {
    match fs::metadata(target) {
        Ok(found) => found.mode() & 0o777,
        Err(_) => 0o666 & !process::mask_of_new_files(),
    }
}
