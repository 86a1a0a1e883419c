//! Whether rules were broken, in one sentence: for certain, perhaps, or as a peer said by an error.

use explain::answer::{Answer, Signal};
use reports::{grouped, section_of, Finding, Side};

use crate::wording::code_name;

/// So many rules or errors are named.
const MOST_NAMED: usize = 3;

/// How often each of some things was, in the order in which they first were.
type Counts<T> = Vec<(T, u64)>;
/// Who broke it, its section, and the kind of the finding.
type Rule<'a> = (Option<Side>, String, &'a str);

/// What peers said by GOAWAY and RST_STREAM with an error.
pub fn errors(answer: &Answer) -> impl Iterator<Item = &Signal> {
    answer.audited().flat_map(|one| &one.signals).filter(|one| one.code != 0)
}

/// What is said of rules in the first line, which nothing below it contradicts.
pub fn broken(answer: &Answer) -> String {
    let faults = || answer.audited().flat_map(|one| &one.faults);
    let certain = rules_of(faults().filter(|fault| !fault.is_doubtful()).map(|fault| &fault.finding));
    let doubtful = rules_of(faults().filter(|fault| fault.is_doubtful()).map(|fault| &fault.finding));
    let mut said = Vec::new();
    if !certain.is_empty() {
        let text = listed(&certain, rule_words, "rules");
        said.push(format!("T{}.", text.strip_prefix('t').unwrap_or(&text)));
    }
    if !doubtful.is_empty() {
        said.push(format!("Doubtful: {}.", listed(&doubtful, rule_words, "rules")));
    }
    let errors = counted(errors(answer).map(|one| (one.side, one.code)));
    if certain.is_empty() && !errors.is_empty() {
        let error = |((side, code), times): &((Side, u32), u64)| {
            format!("the {side} answered {}{}", code_name(*code), times_words(*times))
        };
        said.push(format!("A rule may have been broken: {}.", listed(&errors, error, "errors")));
    }
    if !said.is_empty() {
        return said.join(" ");
    }
    // If only a part was audited, only that part is said to be clean.
    let is_partial = !answer.not_audited.is_empty()
        || !answer.cuts.is_empty()
        || answer.audited().any(|one| one.joined.is_some())
        || answer.audited().any(|one| !one.gaps.is_empty() || !one.uncaptured.is_empty());
    format!("No rule was broken{}.", if is_partial { " in what was audited" } else { "" })
}

fn rules_of<'a>(findings: impl Iterator<Item = &'a Finding>) -> Counts<Rule<'a>> {
    counted(findings.map(|finding| (finding.who_broke_it(), section_of(finding), finding.kind.name())))
}

/// The most frequent first.
fn counted<T: PartialEq>(all: impl Iterator<Item = T>) -> Counts<T> {
    let mut counts: Counts<T> = Vec::new();
    for one in all {
        match counts.iter_mut().find(|known| known.0 == one) {
            Some(known) => known.1 += 1,
            None => counts.push((one, 1)),
        }
    }
    counts.sort_by_key(|one| std::cmp::Reverse(one.1));
    counts
}

fn listed<T>(all: &[T], words: impl Fn(&T) -> String, of: &str) -> String {
    let named: Vec<String> = all.iter().take(MOST_NAMED).map(words).collect();
    let more = all.len() - named.len();
    let more = if more > 0 { format!("; and {more} {of} more") } else { String::new() };
    named.join("; ") + &more
}

fn rule_words(((who, section, kind), times): &(Rule<'_>, u64)) -> String {
    let side = who.map_or("", Side::name);
    let rule = if section.is_empty() { "a rule".to_string() } else { format!("RFC 9113, {section}") };
    format!("the {side} broke {rule} ({kind}){}", times_words(*times))
}

fn times_words(times: u64) -> String {
    if times > 1 {
        format!(" {} times", grouped(times))
    } else {
        String::new()
    }
}
