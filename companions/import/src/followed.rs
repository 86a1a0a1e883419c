//! A pair of endpoints that may be joined: by its frames as they stand, or by those that its keys show.

use std::io;

use captures::{flags, Arrival, Ends, Segment};
use joined::{Joined, Joiner, Piece, Unjoined};
use tls::{Reason, Shared};

use crate::encrypted::{Decrypted, Encrypted, Out};
use crate::outcomes::NotJoined;

/// A connection that is joined, and what became of its records where it is encrypted.
pub struct JoinedFlows {
    pub joined: Joined,
    pub decrypted: Option<Decrypted>,
}

/// What became of one that was followed, and what its records go on with behind a gap.
pub struct Ended {
    pub became: Result<JoinedFlows, NotJoined>,
    pub tls: Option<Box<tls::TlsConnection>>,
}

/// Where a connection goes on behind a gap.
pub struct Going {
    pub first: Arrival,
    /// The endpoints of the first flow.
    pub ends: Ends,
    pub starts: [u32; 2],
    /// The flow of the client, if that is known.
    pub client: Option<usize>,
}

pub struct Followed {
    joiner: Joiner,
    /// As long as it may be TLS.
    encrypted: Option<Encrypted>,
    /// Why there are no frames in the clear, and why none are opened.
    in_the_clear: Option<Unjoined>,
    refused: Option<Reason>,
}

impl Followed {
    /// The pair of this number, whose first segment is this one.
    pub fn new(pair: usize, shared: &Shared, first: Arrival, ends: Ends) -> Followed {
        let encrypted = Some(Encrypted::new(pair, shared, first, ends));
        Followed { joiner: Joiner::new(first, ends), encrypted, in_the_clear: None, refused: None }
    }

    /// What goes on behind a gap; of TLS, what its records go on with.
    pub fn behind(going: &Going, tls: Option<tls::TlsConnection>) -> Followed {
        let Going { first, ends, starts, client } = *going;
        let mut joiner = Joiner::behind(first, ends, starts, client);
        let in_the_clear = tls.is_some().then_some(Unjoined::Tls);
        tls.iter().for_each(|_| joiner.encrypted());
        let encrypted = tls.map(|tls| Encrypted::behind(tls, first, ends, starts));
        Followed { joiner, encrypted, in_the_clear, refused: None }
    }

    /// How many bytes wait.
    #[inline]
    pub fn waiting(&self) -> usize {
        self.joiner.waiting() + self.encrypted.as_ref().map_or(0, Encrypted::waiting)
    }

    /// Takes a segment of a connection in the clear of which no packets are missing, if its frames are known. Answers
    /// whether that is so: then no more waits than before, and it is not over.
    #[inline]
    pub fn goes_on(&mut self, flow: usize, arrival: Arrival, segment: &Segment<'_>) -> bool {
        self.encrypted.is_none() && self.joiner.goes_on(flow, &piece_of(arrival, segment))
    }

    /// Takes a segment of a flow: 0 is that of the first segment.
    pub fn take(
        &mut self,
        shared: &mut Shared,
        flow: usize,
        (arrival, segment): (Arrival, &Segment<'_>),
        out: &mut Out<'_>,
    ) -> io::Result<()> {
        self.joiner.take(flow, &piece_of(arrival, segment));
        match self.encrypted {
            None => Ok(()),
            Some(_) => self.take_encrypted(shared, flow, (arrival, segment), out),
        }
    }

    /// Takes a segment of what may be TLS.
    #[inline(never)]
    fn take_encrypted(
        &mut self,
        shared: &mut Shared,
        flow: usize,
        (arrival, segment): (Arrival, &Segment<'_>),
        out: &mut Out<'_>,
    ) -> io::Result<()> {
        self.look_in_the_clear();
        if let Some(encrypted) = &mut self.encrypted {
            encrypted.take(shared, flow, arrival, segment);
        }
        self.look_at_records(out)
    }

    /// What is HTTP/2 in the clear, or has its first bytes, is not opened here.
    fn look_in_the_clear(&mut self) {
        if self.encrypted.as_ref().map_or(true, Encrypted::is_opened) {
            return;
        }
        if self.joiner.is_exact() || self.joiner.has_border() {
            self.encrypted = None;
        } else if let Some(why) = self.joiner.over() {
            self.in_the_clear.get_or_insert(why);
            self.joiner.encrypted();
        }
    }

    fn look_at_records(&mut self, out: &mut Out<'_>) -> io::Result<()> {
        let encrypted = match &mut self.encrypted {
            Some(encrypted) => encrypted,
            None => return Ok(()),
        };
        if encrypted.is_over() {
            self.refused = encrypted.refused();
            self.encrypted = None;
        } else if encrypted.is_opened() {
            if self.in_the_clear.is_none() {
                self.in_the_clear = Some(Unjoined::Tls);
                self.joiner.encrypted();
            }
            return encrypted.give(&mut self.joiner, out);
        }
        Ok(())
    }

    /// Why it cannot be joined, whatever follows.
    #[inline]
    pub fn over(&self) -> Option<NotJoined> {
        match &self.encrypted {
            None => self.in_the_clear.or_else(|| self.joiner.over()).map(|why| self.named(why)),
            Some(encrypted) if encrypted.is_opened() => self.joiner.over().map(NotJoined::Frames),
            Some(_) => None,
        }
    }

    /// Why it is not joined, by what is known of its frames in the clear.
    fn named(&self, why: Unjoined) -> NotJoined {
        self.refused.map_or(NotJoined::Frames(why), NotJoined::Tls)
    }

    /// What its segments tell, all of which came.
    pub fn finish(mut self, shared: &mut Shared, out: &mut Out<'_>) -> io::Result<Ended> {
        if let Some(encrypted) = &mut self.encrypted {
            encrypted.finish(shared);
        }
        self.look_at_records(out)?;
        if let Some(encrypted) = self.encrypted.take().filter(Encrypted::is_opened) {
            let decrypted = encrypted.decrypted(out)?;
            let joined = self.joiner.finish().map_err(NotJoined::Frames);
            let became = joined.map(|joined| JoinedFlows { joined, decrypted: Some(decrypted) });
            return Ok(Ended { became, tls: Some(encrypted.into_tls()) });
        }
        let joined = match self.in_the_clear {
            Some(why) => Err(self.named(why)),
            None => {
                let refused = self.refused;
                self.joiner.finish().map_err(|why| refused.map_or(NotJoined::Frames(why), NotJoined::Tls))
            }
        };
        Ok(Ended { became: joined.map(|joined| JoinedFlows { joined, decrypted: None }), tls: None })
    }
}

#[inline]
fn piece_of<'a>(arrival: Arrival, segment: &Segment<'a>) -> Piece<'a> {
    let Segment { sequence, acknowledgement, flags, identification, .. } = *segment;
    let acknowledgement = (flags & flags::ACK != 0).then_some(acknowledgement);
    Piece { arrival, sequence, acknowledgement, flags, identification, payload: segment.payload() }
}
