//! Reads back what the map says of a connection that was joined, as far as its report is brought back by that.

use joined::{Assumed, Border, Grade, How, Inferred, SideEvidence, What, CLIENT, SERVER};

use super::SIDES;

/// The first words of the lines.
const WORDS: [&str; 10] = [
    "joined",
    "border",
    "doubtful",
    "open",
    "settings-before",
    "changed",
    "frame-size",
    "assumed",
    "after-gap",
    "one-direction",
];

/// How a connection was joined, how many bytes of each side were made up, and whether one direction alone was captured.
#[derive(Debug, PartialEq, Eq)]
pub struct Said {
    pub how: How,
    pub bytes: [u64; 2],
    pub is_one_way: bool,
}

/// Whether a line of the map is one that says how the connection before it was joined.
pub fn is_of_joined(line: &str) -> bool {
    line.split(' ').next().map_or(false, |word| WORDS.contains(&word))
}

/// What such lines say; none where one is broken.
pub fn said_by(lines: &[String]) -> Option<Said> {
    let (first, rest) = lines.split_first()?;
    let words: Vec<&str> = first.split(' ').collect();
    let (mut how, bytes) = match words[..] {
        ["joined", "exact", "syn", "records", _] => (How::Syn, [0; 2]),
        ["joined", "exact", "syn-ack", "records", _] => (How::Answer, [0; 2]),
        ["joined", "exact", "handshake", "records", _] => (How::Handshake, [0; 2]),
        ["joined", "inferred", "records", _, "frames", client, server, "bytes", up, down, "sides", told] => {
            let made = [client.parse().ok()?, server.parse().ok()?];
            let inferred = Inferred { made, ..nothing_of(SideEvidence::of(told)?) };
            (How::Inferred(Box::new(inferred)), [up.parse().ok()?, down.parse().ok()?])
        }
        _ => return None,
    };
    let mut is_one_way = false;
    for line in rest {
        match &mut how {
            _ if line == "one-direction" => is_one_way = true,
            _ if line.starts_with("after-gap ") => {}
            How::Inferred(inferred) => take(inferred, line)?,
            _ => return None,
        }
    }
    Some(Said { how, bytes, is_one_way })
}

fn nothing_of(sides: SideEvidence) -> Inferred {
    Inferred {
        sides,
        borders: [None; 2],
        made: [0; 2],
        assumed: Vec::new(),
        acknowledged: [0; 2],
        longest: [super::USUAL_FRAME; 2],
        changed: [None; 2],
        divided: [None; 2],
        open: Vec::new(),
        is_doubtful: false,
    }
}

fn take(inferred: &mut Inferred, line: &str) -> Option<()> {
    let words: Vec<&str> = line.split(' ').collect();
    match words[..] {
        ["border", side, "none"] => inferred.borders[side_of(side)?] = None,
        ["border", side, "offset", at, "bits", bits] => {
            inferred.borders[side_of(side)?] = Some(Border { at: at.parse().ok()?, bits: bits.parse().ok()? });
        }
        ["doubtful"] => inferred.is_doubtful = true,
        ["open", ..] => {
            inferred.open = words[1..].iter().map(|id| id.parse().ok()).collect::<Option<_>>()?;
            inferred.open.sort_unstable();
        }
        ["settings-before", side, count] => inferred.acknowledged[side_of(side)?] = count.parse().ok()?,
        ["changed", side, "time", time] => inferred.changed[side_of(side)?] = Some(time.parse().ok()?),
        ["frame-size", side, length] => inferred.longest[side_of(side)?] = length.parse().ok()?,
        ["assumed", side, ..] => inferred.assumed.push(assumed(side_of(side)?, &words[2..])?),
        _ => return None,
    }
    Some(())
}

fn assumed(side: usize, words: &[&str]) -> Option<Assumed> {
    let (what, words) = window(words)?;
    let (one, rest) = match words {
        ["credit", credit, "least", least, grade, "bits", bits, "touches", touches, "pause", pause, rest @ ..] => {
            let (credit, least, grade) = (credit.parse().ok()?, least.parse().ok()?, Grade::of(grade)?);
            let (bits, touches, pause) = (bits.parse().ok()?, touches.parse().ok()?, pause.parse().ok()?);
            (Assumed { side, what, credit, least, grade, bits, touches, pause, with: None }, rest)
        }
        _ => return None,
    };
    match rest {
        [] => Some(one),
        ["or", rest @ ..] => {
            window(rest).filter(|(_, rest)| rest.is_empty()).map(|(with, _)| Assumed { with: Some(with), ..one })
        }
        _ => None,
    }
}

/// The window that words begin with, and what follows it.
fn window<'a, 'b>(words: &'a [&'b str]) -> Option<(What, &'a [&'b str])> {
    match words {
        ["connection", rest @ ..] => Some((What::Connection, rest)),
        ["initial", rest @ ..] => Some((What::Initial, rest)),
        ["stream", id, rest @ ..] => Some((What::Stream(id.parse().ok()?), rest)),
        _ => None,
    }
}

fn side_of(word: &str) -> Option<usize> {
    [CLIENT, SERVER].into_iter().find(|side| SIDES[*side] == word)
}

#[cfg(test)]
mod tests {
    use super::super::lines_of;
    use super::*;
    use crate::outcomes::{Behind, JoinedConnection};

    fn inferred() -> Inferred {
        let one = |side, what, grade, with| {
            let (credit, least, bits, touches, pause) = (-5, -6, 17, 3, 1_000_000);
            Assumed { side, what, credit, least, grade, bits, touches, pause, with }
        };
        Inferred {
            borders: [Some(Border { at: 172, bits: 99 }), None],
            made: [7, 9],
            assumed: vec![
                one(0, What::Connection, Grade::Bound, None),
                one(1, What::Initial, Grade::Strong, None),
                one(1, What::Stream(3), Grade::Either, Some(What::Connection)),
                one(1, What::Connection, Grade::Either, Some(What::Stream(3))),
            ],
            acknowledged: [0, 2],
            longest: [super::super::USUAL_FRAME, 20_000],
            changed: [None, Some(-9)],
            open: vec![3, 5, 1_000_001],
            is_doubtful: true,
            ..nothing_of(SideEvidence::GoAway)
        }
    }

    fn joined(how: How, bytes: [u64; 2], behind: Behind, is_one_way: bool) -> JoinedConnection {
        JoinedConnection { connection: 4, how, records: 12, bytes, behind, is_one_way }
    }

    /// What is written is read, but for what no line has.
    #[test]
    fn lines_are_read_back() {
        for (how, bytes) in
            [(How::Syn, [0; 2]), (How::Handshake, [0; 2]), (How::Inferred(Box::new(inferred())), [5, 6])]
        {
            for (behind, is_one_way) in [(Behind::No, false), (Behind::First, true), (Behind::Gap(3), false)] {
                let lines = lines_of(&joined(how.clone(), bytes, behind, is_one_way));
                assert!(lines.iter().all(|line| is_of_joined(line)), "{lines:?}");
                assert_eq!(said_by(&lines), Some(Said { how: how.clone(), bytes, is_one_way }), "{lines:?}");
            }
        }
    }

    #[test]
    fn broken_lines() {
        let lines = lines_of(&joined(How::Inferred(Box::new(inferred())), [5, 6], Behind::Gap(3), false));
        for at in 0..lines.len() {
            for word in lines[at].split(' ').filter(|word| *word != "3" && *word != "4") {
                let mut broken = lines.clone();
                broken[at] = lines[at].replacen(word, "x", 1);
                let is_read = said_by(&broken).is_some();
                // Numbers that nothing is made of are passed over.
                assert!(!is_read || word == "12", "{broken:?}");
            }
        }
        assert_eq!(said_by(&[]), None);
    }
}
