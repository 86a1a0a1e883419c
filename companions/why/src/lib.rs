//! What an answer is in words and in forms for machines (docs/WHY.md), and what of it fails a run.

#![forbid(unsafe_code)]

mod asked;
mod charts;
pub mod compare;
mod compare_said;
mod document;
pub mod ends;
mod ends_requests;
mod ends_said;
mod ends_stalls;
mod faults;
mod gates;
mod joined;
mod joined_rows;
mod junit;
mod legs;
mod legs_rows;
mod legs_said;
mod life;
mod page;
mod phrases;
mod rows;
mod rules;
mod summing;
mod text;
mod trace;
mod trace_legs;
mod wording;

pub use charts::{notes_of, write_report};
pub use ends_said::by_place;
pub use gates::{failures_of, lines_of, Failure, Gates, Place, Reason};
pub use junit::{write as write_junit, Judged};
pub use page::Look;
pub use phrases::Phrases;
pub use summing::{Summary, SummedConnection, Tally, Verdict, Whole};
pub use text::name_of;
pub use trace::write as write_trace;

use std::io::{self, Write};

use asked::Shown;
use compare::Compared;
use ends::Joined;
use page::Page;
use reports::json;

/// A form in which an answer is written.
#[derive(Clone, Copy, Debug)]
pub enum Form {
    Text(Look),
    /// One document of JSON.
    Document,
    /// The document for a page, with charts and the requests that it shows.
    Charts,
    /// A line of JSON for each request.
    Lines,
    /// Rows for a database.
    Rows,
}

pub fn write(whole: &Whole<'_>, form: Form, to: &mut dyn Write) -> io::Result<()> {
    match form {
        Form::Text(look) => text::write(whole, look, to),
        Form::Document => document::write(whole, None, to),
        Form::Charts => {
            let shown = Shown::of(whole.connections.iter().map(|one| one.said), &whole.answer.legs);
            document::write(whole, Some(&shown), to)
        }
        Form::Lines => document::write_lines(whole, to),
        Form::Rows => rows::write(whole, to),
    }
}

/// Writes what two captures of the same work show side by side: text where it has a look, else a document of JSON.
pub fn write_compared(both: &Compared<'_>, look: Option<Look>, to: &mut dyn Write) -> io::Result<()> {
    match look {
        Some(look) => compare_said::write(both, &mut Page::new(look, &both.after.answer.files, to)),
        None => compare_said::write_document(both, to),
    }
}

/// Writes what both ends of connections tell of their requests and stalls: text where it has a look, else JSON.
pub fn write_joined(found: &Joined<'_>, look: Option<Look>, to: &mut dyn Write) -> io::Result<()> {
    match look {
        Some(look) => ends_said::write(found, &mut Page::new(look, &found.wholes[1].answer.files, to)),
        None => ends_said::write_document(found, to),
    }
}
