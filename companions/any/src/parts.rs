//! Audits a capture in parts, side by side, and merges their reports: h2audit-any --parts.
//!
//! h2audit-split puts the packets of each pair of endpoints into one part, and h2audit-merge makes of the parts'
//! reports the one that h2audit would give of the whole. Parts hold plaintext: they stand in a folder that its owner
//! alone may read, and go with any error or signal.

use std::collections::VecDeque;
use std::ffi::OsStr;
use std::fs::{self, File, Permissions};
use std::os::unix::fs::PermissionsExt;
use std::path::{Path, PathBuf};
use std::process::{Command, Stdio};
use std::time::Duration;
use std::{io, thread};

use programs::{
    auditor, beside_or_in_path, printable, say, temporary_failure, Audit, Cleanup, Failure, Guard, Progress, Running,
    H2AUDIT,
};

use crate::NAME;

pub const MOST_PARTS: u64 = 500;
const SPLIT: &str = "h2audit-split";
pub const MERGE: &str = "h2audit-merge";
const REFUSED: i32 = 3;
const NO_MEMORY: i32 = 5;
const TICK: Duration = Duration::from_millis(5);

/// Parts of a capture whose reports are merged. The folder goes with this value.
pub struct Parts {
    pub merging: Audit,
    /// Whether h2audit-split refused none.
    pub is_whole: bool,
    _folder: Guard,
}

/// The programs that make and merge parts.
pub struct PartPrograms {
    split: PathBuf,
    merge: PathBuf,
}

impl PartPrograms {
    pub fn find() -> Result<PartPrograms, Failure> {
        Ok(PartPrograms { split: named(SPLIT)?, merge: named(MERGE)? })
    }

    /// Audits so many parts, as many at once as there are processors, and begins to merge their reports.
    pub fn audit(&self, program: &OsStr, options: &[String], parts: u64, capture: &Path) -> Result<Parts, Failure> {
        let (guard, top) = private_folder()?;
        let folder = top.join("parts");
        let is_whole = self.split(parts, &folder, capture)?;
        audit_parts(program, options, &folder)?;
        let mut merge = Command::new(&self.merge);
        merge.arg(&folder).args((!is_whole).then_some("--standing"));
        Ok(Parts { merging: Audit::start_telling(&mut merge)?, is_whole, _folder: guard })
    }

    /// Splits a capture, and says whether all parts stand; those that were refused are named on standard error.
    fn split(&self, parts: u64, folder: &Path, capture: &Path) -> Result<bool, Failure> {
        let _splitting = Progress::begin(NAME, "splitting", None);
        let said_to = folder.with_file_name("said");
        let file = File::create(&said_to).map_err(|error| Failure::of_file(&said_to, &error))?;
        let mut split = Command::new(&self.split);
        split.arg("--parts").arg(parts.to_string()).arg("-o").arg(folder).arg(capture);
        let (running, _) = Running::start(split.stderr(Stdio::from(file)))?;
        let status = running.status()?;
        let said = String::from_utf8_lossy(&fs::read(&said_to).unwrap_or_default()).into_owned();
        if status != 0 && !(status == REFUSED && folder.join("split.txt").exists()) {
            return Err(as_ours(SPLIT, status, &said));
        }
        for line in said.lines() {
            say(NAME, line.strip_prefix("h2audit-split: ").unwrap_or(line));
        }
        Ok(status == 0)
    }
}

fn named(program: &str) -> Result<PathBuf, Failure> {
    beside_or_in_path(program).ok_or_else(|| Failure::Io(format!("{program}: not found")))
}

/// A folder that its owner alone may read.
fn private_folder() -> Result<(Guard, PathBuf), Failure> {
    let made = Guard::making(|| {
        let folder = tempfile::Builder::new().prefix("h2audit-any-").tempdir()?;
        fs::set_permissions(folder.path(), Permissions::from_mode(0o700))?;
        let path = folder.into_path();
        Ok((Cleanup::Folder(path.clone()), path))
    });
    made.map_err(|error| temporary_failure(&error))
}

/// Makes the report of each part, beside it.
fn audit_parts(program: &OsStr, options: &[String], folder: &Path) -> Result<(), Failure> {
    let mut waiting = VecDeque::from(parts_in(folder).map_err(|error| Failure::of_file(folder, &error))?);
    let _auditing = Progress::begin(NAME, "auditing", Some(waiting.iter().map(|(_, size)| size).sum()));
    let most = thread::available_parallelism().map_or(1, |count| count.get());
    let mut running: Vec<(Running, u64)> = Vec::new();
    while !waiting.is_empty() || !running.is_empty() {
        while running.len() < most {
            match waiting.pop_front() {
                Some((part, size)) => running.push((audit_part(program, options, &part)?, size)),
                None => break,
            }
        }
        thread::sleep(TICK);
        let mut still = Vec::new();
        for (audit, size) in running {
            match audit.ended()? {
                None => still.push((audit, size)),
                Some(status) => match audit.code(status)? {
                    0 | 1 => Progress::add(size),
                    other => return Err(as_ours(H2AUDIT, other, "")),
                },
            }
        }
        running = still;
    }
    Ok(())
}

/// Parts and their sizes.
fn parts_in(folder: &Path) -> io::Result<Vec<(PathBuf, u64)>> {
    let mut parts = Vec::new();
    for entry in fs::read_dir(folder)? {
        let path = entry?.path();
        if path.extension() == Some(OsStr::new("pcap")) {
            let size = fs::metadata(&path)?.len();
            parts.push((path, size));
        }
    }
    parts.sort();
    Ok(parts)
}

fn audit_part(program: &OsStr, options: &[String], part: &Path) -> Result<Running, Failure> {
    let path = part.with_extension("report");
    let report = File::create(&path).map_err(|error| Failure::of_file(&path, &error))?;
    let mut command = auditor(program, options);
    command.arg(part).stdout(Stdio::from(report));
    Running::start_telling(&mut command).map(|(running, _)| running)
}

/// Goes on as if the program's failure were this one's: statuses of all programs mean the same.
pub fn as_ours(program: &str, status: i32, said: &str) -> Failure {
    let said = said.trim();
    match status {
        REFUSED => {
            let reason = said.rsplit_once(" refused: ").map(|(_, reason)| reason);
            let reason = reason.map_or_else(|| format!("by {program}"), str::to_string);
            Failure::Refused(format!("capture refused: {}", printable(reason)))
        }
        NO_MEMORY => Failure::Memory,
        _ if said.is_empty() => Failure::Io(format!("{program}: ended with status {status}")),
        _ => {
            let what = said.strip_prefix(program).and_then(|said| said.strip_prefix(": ")).unwrap_or(said);
            Failure::Io(format!("{program}: {}", printable(what)))
        }
    }
}
