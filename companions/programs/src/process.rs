//! What Linux says of this process.

use std::fs;

/// The signals that whoever started the program wants ignored, as nohup does: a bit for each, from that of signal 1 on.
pub fn ignored_signals() -> u64 {
    field("SigIgn:").and_then(|mask| u64::from_str_radix(&mask, 16).ok()).unwrap_or(0)
}

/// The rights that a new file does not get.
pub fn mask_of_new_files() -> u32 {
    field("Umask:").and_then(|mask| u32::from_str_radix(&mask, 8).ok()).unwrap_or(0o077)
}

fn field(name: &str) -> Option<String> {
    let status = fs::read_to_string("/proc/self/status").ok()?;
    status.lines().find_map(|line| line.strip_prefix(name)).map(|value| value.trim().to_string())
}
