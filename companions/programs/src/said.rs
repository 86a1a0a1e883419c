//! What a program that runs for this one says on standard error, where a line of this one stands on the terminal.

use std::fs::File;
use std::io::{self, Seek};
use std::process::{Command, Stdio};

use crate::progress::{has_line, without_line};

/// What the program said, which is told when this goes: then the program has said all.
pub struct Said(File);

impl Said {
    /// Keeps what the program says. Without a terminal there is no line, and the program tells it itself.
    pub fn of(command: &mut Command) -> io::Result<Option<Said>> {
        if !has_line() {
            return Ok(None);
        }
        let file = tempfile::tempfile()?;
        command.stderr(Stdio::from(file.try_clone()?));
        Ok(Some(Said(file)))
    }
}

impl Drop for Said {
    fn drop(&mut self) {
        if self.0.metadata().map_or(false, |file| file.len() > 0) {
            // Nobody is told where the terminal is gone.
            without_line(|| drop(self.0.rewind().and_then(|()| io::copy(&mut self.0, &mut io::stderr()))));
        }
    }
}
