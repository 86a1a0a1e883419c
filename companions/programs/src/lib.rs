//! What the programs share: command lines, messages and statuses, signals, files that are there only once they are
//! whole, how far long work is, and what programs need that import and audit: private files, and h2audit as a child
//! that goes with them.

#![forbid(unsafe_code)]

mod audit;
mod failure;
mod input;
mod messages;
mod output;
mod private_file;
mod process;
mod progress;
mod run;
mod running;
mod said;
mod signals;
mod words;

pub use audit::{auditor, program_named, Audit, H2AUDIT};
pub use failure::{io_reason, Failure, Outcome};
pub use input::{is_typed, Input};
pub use messages::{printable, say};
pub use output::{is_special, Output, BUFFER};
pub use private_file::{temporary_failure, PrivateFile};
pub use progress::Progress;
pub use run::run;
pub use running::{beside_or_in_path, Running};
pub use signals::{end_cleanly, Cleanup, Guard};
pub use words::{missing, number, print, wrong};
