//! Connections that began before the capture (docs/MAP.md, 4): what is kept of pairs of endpoints that were not seen to
//! open one, until all is read; and what is made up for those that are joined.
//!
//! Their packets wait, and so do those of connections with a hole. At the end, behind all that is written otherwise,
//! come the beginnings that are made up, and behind these the packets, as new connections of the capture that is made.

use std::io;

use captures::{flags, Arrival, Ends, Segment, MADE_HEADERS};
use joined::Unjoined;
use programs::{temporary_failure, Failure};
use tls::Shared;

use crate::answers::Answers;
use crate::budget::{Budget, Share};
use crate::encrypted::Out;
use crate::followed::{Ended, Followed, JoinedFlows};
use crate::gaps::Gaps;
use crate::outcomes::{JoinedConnection, NotJoined};
use crate::reach::{Cut, Reach};
use crate::table::{Stray, Taken};
use crate::waiting::{Kept, Known as Datagram, Original, Place, Source, Waiting};

/// So many connections are followed.
pub const MOST_FOLLOWED: usize = 1 << 16;
const COST_OF_A_PIECE: usize = 64;

/// What is known of a pair of endpoints.
enum Pair {
    /// Nothing but its first segment, since none had payload.
    Bare(Arrival, Ends),
    Followed(Box<Known>),
    Over(NotJoined),
}

/// A pair that is followed.
struct Known {
    ends: Ends,
    followed: Followed,
    reach: Reach,
    share: Share,
    last: u64,
}

/// What became of a pair: it may go on behind gaps.
pub struct Finished {
    pub became: Result<JoinedFlows, NotJoined>,
    /// The endpoints of the first segment.
    pub ends: Ends,
    pub cuts: Vec<Cut>,
    pub last: u64,
}

/// The pairs of endpoints by the order of their first segments, and connections with holes.
#[derive(Default)]
pub struct Joining {
    pairs: Vec<Pair>,
    followed: usize,
    budget: Budget,
    pub gaps: Gaps,
    kept: Kept,
    /// The files that can be read twice, whether the one that is read is their last, and the place of the next packet.
    originals: Vec<Original>,
    is_original: bool,
    place: Option<Place>,
    answers: Answers,
    /// Connections that opened, and whose SYN ACK was made up.
    pub joined: Vec<JoinedConnection>,
}

impl Joining {
    /// A file begins, which may be one that can be read twice.
    pub fn begin_file(&mut self, original: Option<Original>) {
        self.is_original = original.is_some();
        self.originals.extend(original);
    }

    /// The next packet stands there in its file, if that is known.
    #[inline]
    pub fn comes_at(&mut self, place: Option<u64>) {
        let file = self.originals.len().wrapping_sub(1) as u32;
        self.place = place.filter(|_| self.is_original).map(|at| Place { file, at });
    }

    /// Takes a segment of a connection: behind a hole its packets wait.
    pub fn opened(&mut self, taken: &Taken, arrival: Arrival, segment: &Segment<'_>) -> Result<(), Failure> {
        match self.gaps.take(taken, arrival, segment) {
            None => Ok(()),
            // It repeats the handshake: behind one that is made up it would open a connection of its own.
            Some(_) if segment.flags & flags::SYN != 0 => Ok(()),
            Some(hole) => {
                let (source, flow, place) = (Source::Hole(hole), taken.sender.side, self.place);
                let known = Datagram { source, flow, arrival, is_plaintext: false, place };
                self.kept.keep(&known, segment).map_err(|error| temporary_failure(&error))
            }
        }
    }

    /// Takes a segment of a pair that has opened no connection so far.
    pub fn take(
        &mut self,
        shared: &mut Shared,
        stray: Stray,
        arrival: Arrival,
        segment: &Segment<'_>,
    ) -> Result<(), Failure> {
        if stray.pair == self.pairs.len() {
            self.pairs.push(Pair::Bare(arrival, segment.ends));
        }
        self.follow(shared, stray, arrival, segment).map_err(|error| temporary_failure(&error))
    }

    fn follow(&mut self, shared: &mut Shared, stray: Stray, arrival: Arrival, segment: &Segment<'_>) -> io::Result<()> {
        let goes_on = match self.pairs.get_mut(stray.pair) {
            Some(Pair::Followed(known)) => known.goes_on(stray.flow, arrival, segment),
            Some(_) => false,
            None => return Ok(()),
        };
        if !goes_on && !self.follow_on(shared, stray, arrival, segment)? {
            return Ok(());
        }
        let (source, flow, place) = (Source::Pair(stray.pair), stray.flow, self.place);
        self.kept.keep(&Datagram { source, flow, arrival, is_plaintext: false, place }, segment)
    }

    /// Takes a segment that is not simply the next one of a pair in the clear. Answers whether the pair's packets wait.
    #[inline(never)]
    fn follow_on(
        &mut self,
        shared: &mut Shared,
        stray: Stray,
        arrival: Arrival,
        segment: &Segment<'_>,
    ) -> io::Result<bool> {
        let number = stray.pair;
        let pair = &mut self.pairs[number];
        match pair {
            Pair::Bare(..) if !segment.has_payload() && segment.flags & flags::SYN == 0 => {}
            Pair::Bare(..) if self.followed == MOST_FOLLOWED => {
                *pair = Pair::Over(NotJoined::Frames(Unjoined::ManyPairs));
            }
            Pair::Bare(first, ends) => {
                self.followed += 1;
                *pair = Pair::Followed(Box::new(Known::new(number, shared, *first, *ends)));
            }
            Pair::Followed(_) | Pair::Over(_) => {}
        }
        if let Pair::Followed(known) = pair {
            // A packet's plaintext stands before it, so that the pair's last packet is the last one kept.
            let mut out = Out { source: Source::Pair(number), kept: &mut self.kept };
            let waiting = known.take(shared, stray.flow, (arrival, segment), &mut out)?;
            self.budget.note(number, &mut known.share, waiting);
            if let Some(why) = known.followed.over() {
                self.give_up(number, why);
            }
            while let Some(oldest) = self.budget.oldest_above() {
                self.give_up(oldest, NotJoined::Frames(Unjoined::ManyWaiting));
            }
        }
        Ok(!matches!(self.pairs[number], Pair::Over(_)))
    }

    fn give_up(&mut self, number: usize, why: NotJoined) {
        if let Pair::Followed(known) = &mut self.pairs[number] {
            self.budget.note(number, &mut known.share, 0);
            self.followed -= 1;
        }
        self.pairs[number] = Pair::Over(why);
    }

    /// Whether a SYN ACK may be missing before a segment.
    #[inline]
    pub fn may_lack_answer(&self, segment: &Segment<'_>) -> bool {
        segment.flags & flags::SYN != 0 || !self.answers.is_empty()
    }

    /// The SYN ACK that is missing before a segment.
    pub fn lost_answer(&mut self, segment: &Segment<'_>) -> Option<[u8; MADE_HEADERS]> {
        self.answers.take(segment)
    }

    /// What became of the next pair, in the order of first segments; none where all were asked for.
    pub fn next(&mut self, shared: &mut Shared, number: usize) -> io::Result<Option<Finished>> {
        let over = |why| Finished { became: Err(why), ends: [0; 12], cuts: Vec::new(), last: 0 };
        let none = NotJoined::Frames(Unjoined::NoFrames);
        let pair = self.pairs.get_mut(number).map(|pair| std::mem::replace(pair, Pair::Over(none)));
        let known = match pair {
            None => return Ok(None),
            Some(Pair::Bare(..)) => return Ok(Some(over(none))),
            Some(Pair::Over(why)) => return Ok(Some(over(why))),
            Some(Pair::Followed(known)) => known,
        };
        let mut out = Out { source: Source::Pair(number), kept: &mut self.kept };
        let Known { ends, followed, reach, last, .. } = *known;
        let Ended { became, tls } = followed.finish(shared, &mut out)?;
        // What its plaintext stands for is not followed by packets.
        let goes_on = tls.is_none() && !reach.is_snapped();
        let cuts = if goes_on { reach.cuts() } else { Vec::new() };
        Ok(Some(Finished { became, ends, cuts, last }))
    }

    /// What waits, to be read.
    pub fn take_packets(&mut self) -> io::Result<Option<Waiting>> {
        std::mem::take(&mut self.kept).packets(std::mem::take(&mut self.originals))
    }
}

impl Known {
    #[inline(never)]
    fn new(number: usize, shared: &Shared, first: Arrival, ends: Ends) -> Known {
        let followed = Followed::new(number, shared, first, ends);
        Known { ends, followed, reach: Reach::default(), share: Share::default(), last: 0 }
    }

    /// Takes a segment if it is simply the next one, and answers whether that is so.
    #[inline]
    fn goes_on(&mut self, flow: usize, arrival: Arrival, segment: &Segment<'_>) -> bool {
        let goes_on = self.reach.goes_on(flow, segment) && self.followed.goes_on(flow, arrival, segment);
        if goes_on {
            self.last = arrival.packet;
        }
        goes_on
    }

    /// Takes a segment, and answers how many bytes wait.
    fn take(
        &mut self,
        shared: &mut Shared,
        flow: usize,
        (arrival, segment): (Arrival, &Segment<'_>),
        out: &mut Out<'_>,
    ) -> io::Result<usize> {
        let syn = u32::from(segment.flags & flags::SYN != 0);
        self.reach.begin(flow, segment.sequence.wrapping_add(syn).wrapping_sub(1));
        self.reach.take(flow, arrival, segment);
        self.last = arrival.packet;
        self.followed.take(shared, flow, (arrival, segment), out)?;
        Ok(self.followed.waiting() + self.reach.pieces() * COST_OF_A_PIECE)
    }
}
