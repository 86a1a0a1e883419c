//! Reports of h2audit and maps of imports: what their lines say (docs/REPORT_FORMAT.md, docs/MAP.md), who is to blame
//! for a finding, the sentences that tell it, and a report as rows for a database.

#![forbid(unsafe_code)]

mod blame;
mod cursor;
mod digits;
pub mod json;
mod kinds;
mod lines;
pub mod maps;
mod notes;
mod numbers;
mod reading;
pub mod rows;
mod sentences;

pub use blame::{section_of, who_is_to_blame};
pub use kinds::{is_fault, Blame, Kind, Side};
pub use lines::{finding_in, Capture, Finding, FindingLine, Flow, Form, Line, Opening, Stall};
pub use notes::{Note, Pairing};
pub use numbers::{count, duration, grouped, put_count, put_grouped, put_number};
pub use reading::{read_line, ReadError, Reader, LONGEST_LINE};
pub use sentences::{sentence_of, what_happened};
