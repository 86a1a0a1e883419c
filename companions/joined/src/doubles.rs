//! Packets that were captured twice.

use crate::incoming::Piece;

/// One stands so close to its double.
const MOST_BETWEEN: usize = 8;

/// What tells the last packets of a flow with payload from others; how many such packets there were, and how many stood
/// twice.
#[derive(Clone, Copy, Debug, Default)]
pub struct Doubles {
    recent: [u64; MOST_BETWEEN],
    pub segments: u64,
    pub doubled: u64,
}

fn print_of(piece: &Piece<'_>) -> u64 {
    let length = piece.payload.len() as u16;
    u64::from(piece.sequence) << 32 | u64::from(length) << 16 | u64::from(piece.identification)
}

impl Doubles {
    pub fn add(&mut self, piece: &Piece<'_>) {
        let print = print_of(piece);
        let is_there = self.recent.iter().fold(false, |is_there, one| is_there | (*one == print));
        self.doubled += u64::from(is_there && piece.identification != 0);
        self.add_first(piece);
    }

    /// Adds a packet that brings bytes which none before it brought.
    #[inline]
    pub fn add_first(&mut self, piece: &Piece<'_>) {
        self.recent[self.segments as usize % MOST_BETWEEN] = print_of(piece);
        self.segments += 1;
    }
}

#[cfg(test)]
mod tests {
    use super::*;
    use captures::Arrival;

    #[test]
    fn within_eight_packets() {
        let mut doubles = Doubles::default();
        let mut add = |sequence, identification| {
            let arrival = Arrival { packet: 1, nanos: 0 };
            doubles.add(&Piece { arrival, sequence, acknowledgement: None, flags: 16, identification, payload: b"a" });
            (doubles.segments, doubles.doubled)
        };
        assert_eq!([add(1, 5), add(1, 5), add(1, 6), add(1, 0), add(1, 0)].map(|one| one.1), [0, 1, 1, 1, 1]);
        for sequence in 10..17 {
            add(sequence, 1);
        }
        assert_eq!(add(1, 6), (13, 1), "too far");
        assert_eq!(add(10, 1), (14, 2), "the eighth before it");
    }
}
