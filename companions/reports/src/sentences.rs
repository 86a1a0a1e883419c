//! What a finding tells, in words.

use crate::blame::who_is_to_blame;
use crate::lines::Finding;
use crate::numbers::grouped;

pub(crate) const FRAME_TYPES: [&str; 10] = [
    "DATA",
    "HEADERS",
    "PRIORITY",
    "RST_STREAM",
    "SETTINGS",
    "PUSH_PROMISE",
    "PING",
    "GOAWAY",
    "WINDOW_UPDATE",
    "CONTINUATION",
];

/// What happened, without who is to blame.
pub fn what_happened(finding: &Finding) -> String {
    let mut text = String::new();
    let mut rest = finding.kind.row().sentence;
    while let Some((before, behind)) = rest.split_once('{') {
        let (word, behind) = behind.split_once('}').unwrap_or((behind, ""));
        text.push_str(before);
        text.push_str(&filled(word, finding));
        rest = behind;
    }
    text + rest
}

/// What stands for a word of the table's sentences.
fn filled(word: &str, finding: &Finding) -> String {
    match word {
        "side" => finding.side.to_string(),
        "other" => finding.side.other().to_string(),
        "stream" => finding.stream.to_string(),
        "window" => window_of(finding),
        "value" => grouped(finding.value),
        "amount" => grouped(finding.value.unsigned_abs()),
        "type" => frame_type(finding.value),
        "setting" => setting(finding.value),
        other => format!("{{{other}}}"),
    }
}

fn window_of(finding: &Finding) -> String {
    match finding.stream {
        0 => "of the connection".to_string(),
        stream => format!("on stream {stream}"),
    }
}

fn frame_type(value: i64) -> String {
    match usize::try_from(value).ok().and_then(|value| FRAME_TYPES.get(value)) {
        Some(name) => name.to_string(),
        None => format!("a frame of type {value}"),
    }
}

fn setting(value: i64) -> String {
    match value {
        2 => "ENABLE_PUSH".to_string(),
        4 => "INITIAL_WINDOW_SIZE".to_string(),
        5 => "MAX_FRAME_SIZE".to_string(),
        _ => format!("setting {value}"),
    }
}

/// One sentence for a finding; more is added to what happened.
pub fn sentence_of(finding: &Finding, more: &str) -> String {
    format!("{}{more} ({}); {}", what_happened(finding), finding.kind.name(), who_is_to_blame(finding))
}
