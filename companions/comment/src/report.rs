//! The findings of a report that become comments.

use std::io::BufRead;

use reports::{Line, Pairing, Reader};

use crate::comments::Findings;
use crate::ended::Ended;
use crate::windows::Windows;

/// A note for each finding, at the record that the report names, in the report's order; credit only where it is asked
/// for.
pub fn findings(source: impl BufRead, with_credit: bool) -> Result<Findings, Ended> {
    let mut reader = Reader::new(source);
    let mut findings = Findings::default();
    let mut pairing = Pairing::default();
    let mut windows = Windows::default();
    while let Some(line) = reader.next_line()? {
        match line {
            Line::Opening(_) => {
                pairing.begin();
                windows = Windows::default();
            }
            Line::Finding(finding) => {
                if finding.kind.is_credit() {
                    windows.meet(&finding);
                } else if finding.kind.is_overrun() {
                    let setters = windows.setters_of(&finding);
                    findings.setters.extend(setters.map(|setters| (findings.notes.len(), setters)));
                }
                if with_credit || !finding.kind.is_credit() {
                    findings.notes.try_reserve(1).map_err(|_| Ended::Memory)?;
                    pairing.note(finding, &mut findings.notes);
                }
            }
            _ => {}
        }
    }
    Ok(findings)
}
