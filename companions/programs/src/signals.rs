//! A signal that ends the program first takes away what is half-written.
//!
//! What has to go is registered before it is there, and both happen under one lock; so a signal finds either nothing or
//! what it has to remove. It keeps the lock until the program has ended by it, so nothing new is made meanwhile.

use std::path::PathBuf;
use std::process::Child;
use std::sync::{Mutex, MutexGuard, PoisonError};
use std::{fs, io, thread};

use signal_hook::consts::{SIGHUP, SIGINT, SIGTERM};
use signal_hook::iterator::Signals;
use signal_hook::low_level::emulate_default_handler;

use crate::process;
use crate::progress::without_line;

/// What a signal removes, or ends.
#[derive(Debug)]
pub enum Cleanup {
    File(PathBuf),
    Folder(PathBuf),
    Process(Child),
}

/// What goes with a signal, each with its number.
static HELD: Mutex<Held> = Mutex::new(Held { last: 0, entries: Vec::new() });

struct Held {
    last: u64,
    entries: Vec<(u64, Cleanup)>,
}

fn held() -> MutexGuard<'static, Held> {
    HELD.lock().unwrap_or_else(PoisonError::into_inner)
}

impl Cleanup {
    fn take_away(self) {
        let _ = match self {
            Cleanup::File(path) => fs::remove_file(path),
            Cleanup::Folder(path) => fs::remove_dir_all(path),
            Cleanup::Process(mut child) => child.kill().and_then(|()| child.wait().map(drop)),
        };
    }
}

/// Something that goes when this is dropped, or with a signal.
#[derive(Debug)]
pub struct Guard {
    number: u64,
}

impl Guard {
    /// Makes something that has to go, with what else comes of making it.
    pub fn making<T>(make: impl FnOnce() -> io::Result<(Cleanup, T)>) -> io::Result<(Guard, T)> {
        let mut held = held();
        let (cleanup, made) = make()?;
        held.last += 1;
        let number = held.last;
        held.entries.push((number, cleanup));
        Ok((Guard { number }, made))
    }

    /// Does what makes the cleanup needless, as giving a file its name; after an error the cleanup is done.
    pub fn settle(self, settle: impl FnOnce(&mut Cleanup) -> io::Result<()>) -> io::Result<()> {
        let mut held = held();
        if let Some(at) = held.entries.iter().position(|(number, _)| *number == self.number) {
            settle(&mut held.entries[at].1)?;
            held.entries.remove(at);
        }
        Ok(())
    }

    /// Looks at what is held, or asks it something.
    pub fn with<T>(&self, look: impl FnOnce(&mut Cleanup) -> T) -> Option<T> {
        let mut held = held();
        held.entries.iter_mut().find(|(number, _)| *number == self.number).map(|(_, cleanup)| look(cleanup))
    }
}

impl Drop for Guard {
    fn drop(&mut self) {
        let mut held = held();
        if let Some(at) = held.entries.iter().position(|(number, _)| *number == self.number) {
            held.entries.remove(at).1.take_away();
        }
    }
}

/// From here on a signal that ends the program takes everything away first, and then ends it as it would have.
pub fn end_cleanly() -> io::Result<()> {
    let ignored = process::ignored_signals();
    let numbers = [SIGINT, SIGTERM, SIGHUP].into_iter().filter(|number| ignored >> (number - 1) & 1 == 0);
    let mut signals = Signals::new(numbers)?;
    thread::Builder::new().spawn(move || {
        if let Some(number) = signals.forever().next() {
            let mut held = held();
            held.entries.drain(..).for_each(|(_, cleanup)| cleanup.take_away());
            without_line(|| ());
            let _ = emulate_default_handler(number);
        }
    })?;
    Ok(())
}
