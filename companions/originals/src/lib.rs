//! The original of a capture that an import makes: what is kept of it, and the report of h2audit brought back to it.

#![forbid(unsafe_code)]

mod beginning;
mod keeping;
mod original;
mod report;

pub use beginning::Beginning;
pub use keeping::Keeping;
pub use original::{Became, Joined, Original, OriginalConnection, Other, SideRead, Unopened};
pub use report::{bring_back, no_report, Broken, Shown};
