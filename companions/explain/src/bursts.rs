//! Requests of which a side reset many at once (docs/WHY.md, 7).

use crate::answer::{At, Nanos};
use crate::side_of;
use crate::words::{code_name, count, time_of};

/// So many, of which each came so soon behind the one before.
const MANY: u64 = 10;
const AT_ONCE: Nanos = 10_000_000;

/// Resets of a side, one soon behind the other.
#[derive(Clone, Copy, Debug)]
struct Burst {
    count: u64,
    first: At,
    last: At,
    /// None where they have several.
    code: Option<u32>,
}

/// The burst that goes on, and the largest one before, by sides.
#[derive(Debug, Default)]
pub struct Bursts {
    now: [Option<Burst>; 2],
    largest: [Option<Burst>; 2],
}

impl Bursts {
    /// A side reset a stream.
    pub fn reset(&mut self, side: usize, at: At, code: u32) {
        match &mut self.now[side] {
            Some(now) if at.time.saturating_sub(now.last.time) <= AT_ONCE => {
                now.count += 1;
                now.last = at;
                now.code = now.code.filter(|one| *one == code);
            }
            now => {
                let before = now.replace(Burst { count: 1, first: at, last: at, code: Some(code) });
                self.largest[side] = larger(self.largest[side], before);
            }
        }
    }

    /// The largest of each side, where it is of many.
    pub fn said(&self) -> Vec<String> {
        let of_side = |side: usize| Some((side, larger(self.largest[side], self.now[side])?));
        [0, 1].into_iter().filter_map(of_side).filter(|(_, one)| one.count >= MANY).map(text_of).collect()
    }
}

fn larger(one: Option<Burst>, other: Option<Burst>) -> Option<Burst> {
    match (one, other) {
        (Some(one), Some(other)) if other.count <= one.count => Some(one),
        (one, None) => one,
        (_, other) => other,
    }
}

fn text_of((side, one): (usize, Burst)) -> String {
    let (requests, within) = (count(one.count, "request"), time_of((one.last.time - one.first.time).max(0)));
    let by = one.code.map_or(String::new(), |code| format!(", by {}", code_name(code)));
    let packets = format!("packets {} to {}", one.first.packet, one.last.packet);
    format!("{requests} were reset by the {} within {within}, {packets}{by}", side_of(side))
}

#[cfg(test)]
mod tests {
    use super::*;

    const MS: Nanos = 1_000_000;

    fn said(resets: &[(usize, Nanos, u32)]) -> Vec<String> {
        let mut bursts = Bursts::default();
        for (packet, (side, ms, code)) in (1..).zip(resets) {
            bursts.reset(*side, At { packet, time: ms * MS, frame: 0 }, *code);
        }
        bursts.said()
    }

    #[test]
    fn many_at_once() {
        let ten: Vec<_> = (0..10).map(|at| (0, at * 10, 8)).collect();
        assert_eq!(said(&ten), ["10 requests were reset by the client within 90 ms, packets 1 to 10, by CANCEL"]);
        assert!(said(&ten[..9]).is_empty());
        let late: Vec<_> = (0..10).map(|at| (0, at * 11, 8)).collect();
        assert!(said(&late).is_empty());
    }

    #[test]
    fn the_largest_of_each_side() {
        let mut all: Vec<_> = (0..11).map(|at| (1, at, 2)).collect();
        all.extend((0..12).map(|at| (1, 100 + at, if at == 3 { 7 } else { 8 })));
        all.extend((0..12).map(|at| (1, 200 + at, 8)));
        all.extend((0..10).map(|at| (0, 300 - at, 8)));
        assert_eq!(
            said(&all),
            [
                "10 requests were reset by the client within 0 ns, packets 36 to 45, by CANCEL",
                "12 requests were reset by the server within 11 ms, packets 12 to 23",
            ]
        );
    }
}
