//! Who broke the rule, and by which section of RFC 9113.

use crate::kinds::{Blame, Side};
use crate::lines::Finding;
use crate::sentences::FRAME_TYPES;

const PUSH_PROMISE: i64 = 5;

impl Finding {
    /// The side that broke the rule, where somebody did.
    pub fn who_broke_it(&self) -> Option<Side> {
        match self.kind.blame() {
            Blame::Named => Some(self.side),
            Blame::Other => Some(self.side.other()),
            Blame::Nobody => None,
        }
    }
}

/// The sections that the finding is against: those of its kind, or fewer where side or value decide.
pub fn section_of(finding: &Finding) -> String {
    let is_client = finding.side == Side::Client;
    match finding.kind.name() {
        "wrong-stream" if (0..FRAME_TYPES.len() as i64).contains(&finding.value) => format!("6.{}", finding.value + 1),
        "wrong-size" => "4.2".to_string(),
        "not-opened" if finding.value == PUSH_PROMISE => "6.6".to_string(),
        "not-opened" => "5.1".to_string(),
        "push" if is_client => "8.4".to_string(),
        "id-not-greater" if is_client => "5.1.1".to_string(),
        _ => finding.kind.row().sections.to_string(),
    }
}

/// Who broke the rule, and by which section; of a stall, whom to ask.
pub fn who_is_to_blame(finding: &Finding) -> String {
    let section = section_of(finding);
    match finding.who_broke_it() {
        None if finding.kind.is_stall_begin() => {
            format!("nobody broke a rule: ask the {} why it granted nothing", finding.side.other())
        }
        None => "nobody broke a rule".to_string(),
        Some(side) if finding.kind.name() == "unmatched-ack" => {
            format!("the {side} is at fault, though RFC 9113, {section}, names no error for it")
        }
        Some(side) if section.is_empty() => format!("the {side} broke RFC 9113"),
        Some(side) => format!("the {side} broke RFC 9113, {section}"),
    }
}
