//! Files that are read.

use std::fs::File;
use std::io::{self, Read};
use std::os::unix::io::AsFd;
use std::path::{Path, PathBuf};

use crate::failure::Failure;

/// A file, or standard input for `-`, without the buffer that Rust puts before it.
pub struct Input {
    file: File,
    name: PathBuf,
}

impl Input {
    pub fn open(name: &Path) -> Result<Input, Failure> {
        let opened = match name.as_os_str() == "-" {
            true => io::stdin().as_fd().try_clone_to_owned().map(File::from),
            false => File::open(name),
        };
        match opened {
            Ok(file) => Ok(Input { file, name: name.to_path_buf() }),
            Err(error) => Err(failure_of(name, &error)),
        }
    }

    /// Names the input as what could not be read.
    pub fn failure(&self, error: &io::Error) -> Failure {
        failure_of(&self.name, error)
    }
}

impl Read for Input {
    fn read(&mut self, room: &mut [u8]) -> io::Result<usize> {
        self.file.read(room)
    }
}

fn failure_of(name: &Path, error: &io::Error) -> Failure {
    match name.as_os_str() == "-" {
        true => Failure::from_io("standard input", error),
        false => Failure::of_file(name, error),
    }
}

/// Whether standard input is a terminal, where a program that reads a file from there would wait without a word.
pub fn is_typed() -> bool {
    atty::is(atty::Stream::Stdin)
}
