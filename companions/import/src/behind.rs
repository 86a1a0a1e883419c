//! What goes on behind gaps: the packets that wait of connections with holes are read once more, and what follows
//! each gap is followed as a connection of its own.

use std::collections::HashMap;
use std::io;
use std::iter::Peekable;
use std::vec;

use captures::{Arrival, Ends, Segment};
use joined::Unjoined;
use tls::Shared;

use crate::budget::{Budget, Share};
use crate::encrypted::Out;
use crate::followed::{Ended, Followed, Going, JoinedFlows};
use crate::outcomes::NotJoined;
use crate::reach::Cut;
use crate::waiting::{Kept, Known, Original, Source, Waiting};

/// A connection with gaps.
pub struct Gapped {
    pub source: Source,
    /// The endpoints of the first flow; and which flow is the client's, if that is known.
    pub ends: Ends,
    pub client: Option<usize>,
    pub cuts: Vec<Cut>,
    /// Its last packet.
    pub last: u64,
    /// What its records go on with, of TLS.
    pub tls: Option<Box<tls::TlsConnection>>,
    /// Whether its packets up to the first gap, and the one behind it, are of a pair that is joined.
    pub is_joined: bool,
}

/// What follows a gap.
pub struct Part {
    pub source: Source,
    /// The endpoints of the first flow; and which flow is the client's, if that is known.
    pub ends: Ends,
    pub client: Option<usize>,
    /// The packet behind the gap, and the flow that has it.
    pub first: Arrival,
    pub flow: usize,
    pub became: Result<JoinedFlows, NotJoined>,
}

/// A connection with gaps whose packets come.
struct Coming {
    gapped: Gapped,
    cuts: Peekable<vec::IntoIter<Cut>>,
    part: Option<Following>,
}

/// A part that is followed.
struct Following {
    number: usize,
    followed: Box<Followed>,
    share: Share,
}

/// All connections with gaps.
pub struct Behind {
    coming: HashMap<Source, Coming>,
    parts: Vec<Part>,
    budget: Budget,
    kept: Kept,
}

const NO_FRAMES: NotJoined = NotJoined::Frames(Unjoined::NoFrames);

impl Behind {
    pub fn new(gapped: Vec<Gapped>) -> Behind {
        let coming = gapped.into_iter().map(|mut gapped| {
            let cuts = std::mem::take(&mut gapped.cuts).into_iter().peekable();
            (gapped.source, Coming { gapped, cuts, part: None })
        });
        Behind { coming: coming.collect(), parts: Vec::new(), budget: Budget::default(), kept: Kept::default() }
    }

    /// Takes what waits, of a connection with gaps or of another one, whose segment this is.
    pub fn take(&mut self, shared: &mut Shared, known: Known, segment: &Segment<'_>) -> io::Result<()> {
        let Known { source, arrival, .. } = known;
        let mut coming = match self.coming.remove(&source) {
            Some(coming) => coming,
            None if matches!(source, Source::Hole(_)) => return Ok(()),
            None => return self.kept.keep(&known, segment),
        };
        let is_before =
            coming.part.is_none() && coming.cuts.peek().map_or(false, |cut| arrival.packet <= cut.first.packet);
        if is_before && coming.gapped.is_joined {
            self.kept.keep(&known, segment)?;
        }
        while let Some(cut) = coming.cuts.next_if(|cut| cut.first.packet <= arrival.packet) {
            coming.gapped.is_joined = false;
            // It shows that bytes are missing.
            self.follow(shared, &mut coming, known, segment)?;
            self.end(shared, &mut coming)?;
            self.begin(shared, &mut coming, &cut);
        }
        self.follow(shared, &mut coming, known, segment)?;
        match arrival.packet >= coming.gapped.last {
            true => self.end(shared, &mut coming)?,
            false => drop(self.coming.insert(source, coming)),
        }
        while let Some(oldest) = self.budget.oldest_above() {
            self.give_up(oldest);
        }
        Ok(())
    }

    fn begin(&mut self, shared: &mut Shared, coming: &mut Coming, cut: &Cut) {
        let Gapped { source, ends, client, tls, .. } = &coming.gapped;
        let number = self.parts.len();
        let (source, ends, client) = (*source, *ends, *client);
        self.parts.push(Part { source, ends, client, first: cut.first, flow: cut.side, became: Err(NO_FRAMES) });
        let going = Going { first: cut.first, ends, starts: cut.starts, client };
        let behind = tls.as_ref().map(|tls| tls.behind_loss(number as u64, shared));
        let followed = match behind {
            // Nothing of its TLS was read before the gap.
            Some(None) => return,
            behind => Followed::behind(&going, behind.flatten()),
        };
        coming.part = Some(Following { number, followed: Box::new(followed), share: Share::default() });
    }

    fn follow(
        &mut self,
        shared: &mut Shared,
        coming: &mut Coming,
        known: Known,
        segment: &Segment<'_>,
    ) -> io::Result<()> {
        let part = match &mut coming.part {
            Some(part) => part,
            None => return Ok(()),
        };
        let known = Known { source: Source::Behind(part.number), ..known };
        let mut out = Out { source: known.source, kept: &mut self.kept };
        part.followed.take(shared, known.flow, (known.arrival, segment), &mut out)?;
        self.budget.note(part.number, &mut part.share, part.followed.waiting());
        match part.followed.over() {
            None => self.kept.keep(&known, segment),
            Some(why) => {
                self.parts[part.number].became = Err(why);
                self.budget.note(part.number, &mut part.share, 0);
                coming.part = None;
                Ok(())
            }
        }
    }

    fn end(&mut self, shared: &mut Shared, coming: &mut Coming) -> io::Result<()> {
        if let Some(Following { number, followed, mut share }) = coming.part.take() {
            self.budget.note(number, &mut share, 0);
            let mut out = Out { source: Source::Behind(number), kept: &mut self.kept };
            let Ended { became, tls } = followed.finish(shared, &mut out)?;
            self.parts[number].became = became;
            coming.gapped.tls = tls.or_else(|| coming.gapped.tls.take());
        }
        Ok(())
    }

    fn give_up(&mut self, number: usize) {
        let source = self.parts[number].source;
        if let Some(Following { mut share, .. }) = self.coming.get_mut(&source).and_then(|coming| coming.part.take()) {
            self.budget.note(number, &mut share, 0);
        }
        self.parts[number].became = Err(NotJoined::Frames(Unjoined::ManyWaiting));
    }

    /// What follows gaps, and all that is to be written.
    pub fn finish(mut self, shared: &mut Shared, originals: Vec<Original>) -> io::Result<(Vec<Part>, Option<Waiting>)> {
        let mut rest: Vec<_> = std::mem::take(&mut self.coming).into_values().collect();
        rest.sort_by_key(|coming| coming.part.as_ref().map(|part| part.number));
        rest.iter_mut().try_for_each(|coming| self.end(shared, coming))?;
        Ok((self.parts, self.kept.packets(originals)?))
    }
}
