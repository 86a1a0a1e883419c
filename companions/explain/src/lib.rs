//! What a capture means for whoever waited: requests with their lives, shares and causes, stalls with their reasons,
//! faults with their certainty, and what was not read.
//!
//! [`answer`] is the model: facts with the frame, the packet and the time at which a reader can check them. Programs
//! print it as text, JSON, rows, pages.

#![forbid(unsafe_code)]

extern crate cutter;

use reports::Side;

mod across;
pub mod answer;
mod audit;
mod beginning;
mod blocks;
mod building;
mod bursts;
mod causes;
mod certainty;
mod charts;
mod connection;
#[cfg(test)]
mod conversations;
mod course;
mod doubts;
mod files;
mod findings;
mod frame_log;
pub mod frames;
mod hung;
pub mod intervals;
mod joining;
mod leaks;
mod learning;
mod legs;
mod life;
#[cfg(test)]
mod life_by_nanosecond;
mod listening;
mod marks;
mod names;
mod packed;
mod passed;
mod reactions;
mod report_charts;
mod reported;
mod requests;
mod rounds;
mod seen;
pub mod series;
mod settings;
mod signals;
mod spoken;
mod stalls;
mod stream;
mod table;
mod tcp;
mod telling;
mod unanswered;
mod unshown;
mod waiting;
mod walk;
mod window_waits;
mod windows;
pub mod words;

pub use building::{answer_of, answer_with_report, ExplainOptions};
pub use import::{CLIENT, SERVER};
pub use report_charts::{read_charts, ReportSaid, Reported as ReportedConnection};
pub use reported::{ReportTo, Reported};

/// The side of this number.
pub(crate) fn side_of(number: usize) -> Side {
    if number == CLIENT {
        Side::Client
    } else {
        Side::Server
    }
}
