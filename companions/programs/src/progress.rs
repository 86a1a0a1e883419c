//! A line on standard error that says how far the work is, on a terminal alone and after some seconds.
//!
//! A thread writes it, so it is there too while the work waits for bytes. The work only counts them. Whatever else goes
//! to the terminal takes the line away first, and no other comes in between.

use std::io::{self, Write};
use std::sync::atomic::{AtomicU64, Ordering};
use std::sync::{Mutex, MutexGuard, PoisonError};
use std::thread;
use std::time::{Duration, Instant};

const BEFORE_FIRST: Duration = Duration::from_secs(2);
const BETWEEN: Duration = Duration::from_millis(500);
const MEGABYTE: f64 = 1e6;

/// How many bytes of the stage are done.
static DONE: AtomicU64 = AtomicU64::new(0);
static LINE: Mutex<Line> = Mutex::new(Line { stage: None, width: 0, begun: None });

struct Line {
    stage: Option<Stage>,
    /// How many letters stand on the terminal's line.
    width: usize,
    /// When the first stage began, from which on the thread runs.
    begun: Option<Instant>,
}

/// What is done now, and how many bytes it is in all, if that is known.
struct Stage {
    program: String,
    doing: &'static str,
    whole: Option<u64>,
}

fn line() -> MutexGuard<'static, Line> {
    LINE.lock().unwrap_or_else(PoisonError::into_inner)
}

/// A stage of the work, which is shown as long as this is there.
pub struct Progress(());

impl Progress {
    /// Begins a stage, in the place of another one.
    pub fn begin(program: &str, doing: &'static str, whole: Option<u64>) -> Progress {
        if has_line() {
            let mut line = line();
            DONE.store(0, Ordering::Relaxed);
            line.stage = Some(Stage { program: program.to_string(), doing, whole });
            if line.begun.is_none() {
                line.begun = Some(Instant::now());
                // Without a thread there is no line, and the work goes on.
                let _ = thread::Builder::new().spawn(show);
            }
        }
        Progress(())
    }

    /// More bytes of the stage are done.
    pub fn add(bytes: u64) {
        DONE.fetch_add(bytes, Ordering::Relaxed);
    }
}

impl Drop for Progress {
    fn drop(&mut self) {
        let mut line = line();
        line.stage = None;
        line.erase();
    }
}

/// Whether there is a terminal for the line.
pub fn has_line() -> bool {
    atty::is(atty::Stream::Stderr)
}

/// Writes something to the terminal, where the line does not stand meanwhile.
pub fn without_line<T>(write: impl FnOnce() -> T) -> T {
    let mut line = line();
    line.erase();
    write()
}

/// Ends the stage where standard output is a terminal that something is written to from now on.
pub fn leave_terminal() {
    if atty::is(atty::Stream::Stdout) {
        let mut line = line();
        line.stage = None;
        line.erase();
    }
}

fn show() {
    let begun = line().begun.unwrap_or_else(Instant::now);
    thread::sleep(BEFORE_FIRST.saturating_sub(begun.elapsed()));
    loop {
        line().show();
        thread::sleep(BETWEEN);
    }
}

impl Line {
    fn show(&mut self) {
        if let Some(stage) = &self.stage {
            let text = stage.text(DONE.load(Ordering::Relaxed));
            let _ = write!(io::stderr(), "\r{text:width$}", width = self.width);
            self.width = text.len();
        }
    }

    fn erase(&mut self) {
        if self.width > 0 {
            let _ = write!(io::stderr(), "\r{:width$}\r", "", width = self.width);
            self.width = 0;
        }
    }
}

impl Stage {
    fn text(&self, done: u64) -> String {
        let Stage { program, doing, whole } = self;
        let megabytes = |bytes: u64| format!("{:.1}", bytes as f64 / MEGABYTE);
        match whole {
            // Files may grow while they are read.
            Some(whole) if done <= *whole && *whole > 0 => {
                let percent = u128::from(done) * 100 / u128::from(*whole);
                format!("{program}: {doing}: {} of {} MB, {percent} %", megabytes(done), megabytes(*whole))
            }
            _ if done > 0 => format!("{program}: {doing}: {} MB", megabytes(done)),
            _ => format!("{program}: {doing}"),
        }
    }
}

#[cfg(test)]
mod tests {
    use super::*;

    #[test]
    fn a_line_says_what_is_done_and_how_far() {
        let text = |whole, done| Stage { program: "a".to_string(), doing: "reading", whole }.text(done);
        assert_eq!(text(Some(2_000_000), 0), "a: reading: 0.0 of 2.0 MB, 0 %");
        assert_eq!(text(Some(2_000_000), 1_999_999), "a: reading: 2.0 of 2.0 MB, 99 %");
        assert_eq!(text(Some(2_000_000), 2_000_000), "a: reading: 2.0 of 2.0 MB, 100 %");
        assert_eq!(text(Some(2_000_000), 2_000_001), "a: reading: 2.0 MB");
        assert_eq!(text(Some(u64::MAX), u64::MAX), "a: reading: 18446744073709.6 of 18446744073709.6 MB, 100 %");
        assert_eq!(text(Some(0), 0), "a: reading");
        assert_eq!(text(None, 1_234_567), "a: reading: 1.2 MB");
        assert_eq!(text(None, 0), "a: reading");
    }
}
