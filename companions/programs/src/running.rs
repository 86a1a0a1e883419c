//! Programs that this one finds and starts.

use std::ffi::OsString;
use std::os::unix::fs::PermissionsExt;
use std::os::unix::process::ExitStatusExt;
use std::path::{Path, PathBuf};
use std::process::{Child, ChildStdout, Command, ExitStatus};
use std::time::Duration;
use std::{env, fs, thread};

use crate::failure::Failure;
use crate::messages::printable;
use crate::private_file::temporary_failure;
use crate::said::Said;
use crate::signals::{Cleanup, Guard};

/// SIGHUP, SIGINT and SIGTERM, which a terminal or a service manager sends to all that it started.
const ENDING: [i32; 3] = [1, 2, 15];
/// So long a signal takes at most to reach this program too.
const UNTIL_OURS: Duration = Duration::from_millis(300);
/// How long to wait for a program's end, at first and at most.
const TICKS: (Duration, Duration) = (Duration::from_micros(200), Duration::from_millis(20));

/// A program beside this one, or that of the path.
pub fn beside_or_in_path(name: &str) -> Option<PathBuf> {
    let here = env::current_exe().ok().and_then(|program| program.parent().map(Path::to_path_buf));
    let folders = env::var_os("PATH").unwrap_or_default();
    let all = here.into_iter().chain(env::split_paths(&folders));
    all.map(|folder| folder.join(name)).find(|path| is_program(path))
}

fn is_program(path: &Path) -> bool {
    fs::metadata(path).map_or(false, |found| found.is_file() && found.permissions().mode() & 0o111 != 0)
}

/// A program that runs. It goes with this value, and with a signal.
pub struct Running {
    guard: Guard,
    name: OsString,
    /// It is told once the program is gone.
    _said: Option<Said>,
}

impl Running {
    /// Starts a program, and gives what it writes if that is piped.
    pub fn start(command: &mut Command) -> Result<(Running, Option<ChildStdout>), Failure> {
        let name = command.get_program().to_os_string();
        let started = Guard::making(|| {
            let mut child = command.spawn()?;
            let output = child.stdout.take();
            Ok((Cleanup::Process(child), output))
        });
        let (guard, output) = started.map_err(|error| Failure::of_file(&name, &error))?;
        Ok((Running { guard, name, _said: None }, output))
    }

    /// Starts one that says on this program's standard error what is wrong.
    pub fn start_telling(command: &mut Command) -> Result<(Running, Option<ChildStdout>), Failure> {
        let said = Said::of(command).map_err(|error| temporary_failure(&error))?;
        let (running, output) = Running::start(command)?;
        Ok((Running { _said: said, ..running }, output))
    }

    /// The status, once the program has ended.
    pub fn ended(&self) -> Result<Option<ExitStatus>, Failure> {
        let asked = self.guard.with(|held| match held {
            Cleanup::Process(child) => Child::try_wait(child),
            _ => Ok(None),
        });
        asked.unwrap_or(Ok(None)).map_err(|error| Failure::of_file(&self.name, &error))
    }

    /// Waits for the end, and answers the status.
    pub fn status(&self) -> Result<i32, Failure> {
        let mut tick = TICKS.0;
        loop {
            match self.ended()? {
                Some(status) => return self.code(status),
                None => thread::sleep(tick),
            }
            tick = (tick * 2).min(TICKS.1);
        }
    }

    /// The status of a program that has ended; where a signal ended it, this program may get the same one.
    pub fn code(&self, status: ExitStatus) -> Result<i32, Failure> {
        if status.signal().map_or(false, |signal| ENDING.contains(&signal)) {
            thread::sleep(UNTIL_OURS);
        }
        status.code().ok_or_else(|| {
            let signal = status.signal().unwrap_or_default();
            Failure::Io(format!("{}: ended by signal {signal}", printable(&self.name)))
        })
    }
}
