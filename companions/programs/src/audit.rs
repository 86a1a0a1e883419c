//! Runs h2audit, and gives its report to read.

use std::env;
use std::ffi::{OsStr, OsString};
use std::io::BufReader;
use std::path::{Path, PathBuf};
use std::process::{ChildStdout, Command, Stdio};

use crate::failure::Failure;
use crate::running::{beside_or_in_path, Running};

pub const H2AUDIT: &str = "h2audit";
const VARIABLE: &str = "H2AUDIT";
/// So many bytes of a report are read at a time: a pipe holds no more.
const BUFFER: usize = 1 << 16;

/// h2audit as the command line or the environment names it, else the one beside this program, else the path's.
pub fn program_named(named: Option<OsString>) -> Result<OsString, Failure> {
    let named = named.or_else(|| env::var_os(VARIABLE)).filter(|name| !name.is_empty());
    let found = named.or_else(|| beside_or_in_path(H2AUDIT).map(PathBuf::into_os_string));
    found.ok_or_else(|| {
        Failure::Io(format!("{H2AUDIT}: not found; name it with --h2audit, or by the variable {VARIABLE}"))
    })
}

/// A run of h2audit with these options, by one thread where they ask for no other number and for no credits: that one
/// audits a capture as it reads it, keeps nothing of it, and takes less time than several in all.
pub fn auditor(program: &OsStr, options: &[String]) -> Command {
    let mut command = Command::new(program);
    let is_asked = |name| options.iter().any(|option| option.starts_with(name));
    if !is_asked("--workers") && !is_asked("--frames") {
        command.arg("--workers=1");
    }
    command.args(options);
    command
}

/// An audit that runs, and its report.
pub struct Audit {
    pub report: BufReader<ChildStdout>,
    pub running: Running,
}

impl Audit {
    /// One run of the program, which says what is wrong.
    pub fn start(program: &OsStr, options: &[String], capture: &Path) -> Result<Audit, Failure> {
        Audit::start_telling(auditor(program, options).arg(capture))
    }

    /// A program whose report is read, and which says what is wrong.
    pub fn start_telling(command: &mut Command) -> Result<Audit, Failure> {
        Running::start_telling(command.stdout(Stdio::piped())).and_then(Audit::started)
    }

    /// A program whose report is read.
    pub fn of(command: &mut Command) -> Result<Audit, Failure> {
        Running::start(command.stdout(Stdio::piped())).and_then(Audit::started)
    }

    fn started((running, output): (Running, Option<ChildStdout>)) -> Result<Audit, Failure> {
        let output = output.ok_or_else(|| Failure::Io(format!("{H2AUDIT}: its report cannot be read")))?;
        Ok(Audit { report: BufReader::with_capacity(BUFFER, output), running })
    }
}
