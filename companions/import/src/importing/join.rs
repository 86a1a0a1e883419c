//! Writes connections that began before the capture, or go on behind a gap, when all else is written.

use std::ffi::OsStr;
use std::io;

use captures::{Arrival, Decoder, Error, Item, Packet, Reader, Source as File, MADE_HEADERS, RAW};
use joined::{How, Made, Unjoined, CLIENT, SERVER};
use programs::temporary_failure;

use super::{Early, Importer};
use crate::behind::{Behind as Following, Gapped, Part};
use crate::encrypted::Decrypted;
use crate::followed::JoinedFlows;
use crate::gaps::Gap;
use crate::joining::{Finished, MOST_FOLLOWED};
use crate::listener::{Sender, Written};
use crate::outcomes::{Behind, Fate, GapSaid, JoinedConnection, NotJoined, Outcome, Unopened};
use crate::table::{Bytes, Taken};
use crate::waiting::{Known, Original, Source, Waited, Waiting};

/// What became of connections that began before the capture, and behind gaps.
#[derive(Default)]
pub(super) struct Ended {
    pub joined: Vec<JoinedConnection>,
    pub gaps: Vec<GapSaid>,
    /// What became of each pair of endpoints, in the order of first segments.
    fates: Vec<Fate>,
    /// By connections, those whose records were opened.
    decrypted: Vec<(usize, Decrypted)>,
    /// The sides of which packets were captured, by connections in the order in which they were joined.
    captured: Vec<[bool; 2]>,
    /// Where the packets of pairs go, and of what follows gaps.
    pairs: Vec<Option<Way>>,
    behind: Vec<Option<Way>>,
    /// Which connection has each hole.
    holes: Vec<(usize, usize)>,
    /// What follows gaps, until it is written.
    parts: Vec<Option<Part>>,
}

/// Where packets that waited go.
#[derive(Clone, Copy)]
struct Way {
    connection: usize,
    /// Where it stands among those that are joined.
    place: usize,
    /// Whose flow is the client's.
    client: usize,
    /// Whether plaintext stands for them; and whether they go through as they stand.
    is_opened: bool,
    is_direct: bool,
}

impl Way {
    /// Whether plaintext stands for a datagram, so that nothing of it is written.
    fn is_silent(&self, known: &Known) -> bool {
        self.is_opened && !known.is_plaintext
    }

    /// Whether a datagram goes through as it stands.
    #[inline]
    fn passes(&self, known: &Known) -> bool {
        self.is_direct && !self.is_silent(known)
    }

    #[inline]
    fn sender(&self, known: &Known) -> Sender {
        Sender { connection: self.connection, side: known.flow ^ self.client }
    }
}

impl Ended {
    /// Completes what is known otherwise.
    pub(super) fn complete(&mut self, outcomes: &mut [Outcome], unopened: &mut [Unopened]) {
        unopened.iter_mut().zip(&self.fates).for_each(|(one, fate)| one.fate = *fate);
        for pair in unopened.iter().filter(|pair| pair.is_one_way) {
            if let Fate::Joined(connection) = pair.fate {
                let at = self.joined.binary_search_by_key(&connection, |one| one.connection).ok();
                at.into_iter().for_each(|at| self.joined[at].is_one_way = true);
            }
        }
        for (connection, Decrypted { became, last, .. }) in std::mem::take(&mut self.decrypted) {
            (outcomes[connection].became, outcomes[connection].last) = (became, last);
        }
    }

    /// The connection that has a gap; a pair that is not joined before it has none.
    fn root(&self, source: Source) -> Option<usize> {
        match source {
            Source::Pair(pair) => match self.fates.get(pair) {
                Some(Fate::Joined(connection)) => Some(*connection),
                _ => None,
            },
            Source::Hole(hole) => {
                let at = self.holes.binary_search_by_key(&hole, |one| one.0).ok()?;
                Some(self.holes[at].1)
            }
            Source::Behind(_) => None,
        }
    }
}

/// How many bytes of each side records bring.
fn bytes_of(records: &[Made]) -> [u64; 2] {
    let mut bytes = [0; 2];
    records.iter().for_each(|made| bytes[made.side] += (made.datagram.len() - MADE_HEADERS) as u64);
    bytes
}

fn failed(error: io::Error) -> Early {
    temporary_failure(&error).into()
}

impl Importer<'_, '_> {
    /// A file begins. Where it can be read twice, packets that wait stay there, as long as they come as they stand.
    pub(super) fn begin_original(&mut self, path: &OsStr, reader: &Reader) -> Result<(), Early> {
        let joining = match &mut self.joining {
            Some(joining) => joining,
            None => return Ok(()),
        };
        let stays = self.reorder.is_none() && File::can_be_read_twice(path).map_err(Error::Io)?;
        let original = match reader {
            Reader::Pcap(reader) if stays => Some(Original { path: path.into(), header: reader.header() }),
            _ => None,
        };
        joining.begin_file(original);
        Ok(())
    }

    /// The next item of a file, where packets that wait may stay.
    #[inline]
    pub(super) fn next_of<'a>(&mut self, reader: &'a mut Reader) -> Result<Option<Item<'a>>, Error> {
        self.joining.iter_mut().for_each(|joining| joining.comes_at(reader.next_place()));
        reader.next()
    }

    /// Joins connections that began before the capture, behind all others: first what is made up for them, and then
    /// their packets, among which stands what is made up for those that go on behind gaps.
    pub(super) fn join(&mut self) -> Result<Ended, Early> {
        let mut ended = Ended::default();
        let mut joining = match self.joining.take() {
            Some(joining) => joining,
            None => return Ok(ended),
        };
        let mut answered = std::mem::take(&mut joining.joined);
        self.table.finish_open(&mut self.common);
        let mut gapped = Vec::new();
        while let Some(finished) = joining.next(self.common.shared, ended.fates.len()).map_err(failed)? {
            gapped.extend(self.begin_pair(finished, &mut ended)?);
        }
        gapped.extend(self.with_holes(std::mem::take(&mut joining.gaps).finish(), &mut ended));
        let waiting = joining.take_packets().map_err(failed)?;
        self.take_all(waiting, gapped, &mut ended)?;
        let captured = std::mem::take(&mut ended.captured);
        ended.joined.iter_mut().zip(captured).for_each(|(one, sides)| one.is_one_way = sides != [true; 2]);
        ended.joined.append(&mut answered);
        ended.joined.sort_by_key(|one| one.connection);
        ended.gaps.sort_by_key(|gap| (gap.connection, gap.first.packet));
        Ok(ended)
    }

    /// Writes a SYN ACK that was lost.
    pub(super) fn answer(&mut self, arrival: Arrival, headers: &[u8]) -> Result<(), Early> {
        let made = Made { side: SERVER, datagram: headers.to_vec() };
        if let Some(connection) = self.made(arrival, &[made])? {
            let (how, behind) = (How::Answer, Behind::No);
            let joined = JoinedConnection { connection, how, records: 1, bytes: [0; 2], behind, is_one_way: false };
            self.joining.iter_mut().for_each(|joining| joining.joined.push(joined.clone()));
        }
        Ok(())
    }

    /// Writes what is made up for a pair that is joined, and answers whether it goes on behind gaps.
    fn begin_pair(&mut self, finished: Finished, ended: &mut Ended) -> Result<Option<Gapped>, Early> {
        let Finished { became, ends, cuts, last } = finished;
        let source = Source::Pair(ended.fates.len());
        let (fate, way) = match became {
            Err(why) => (Fate::Unjoined(why), None),
            Ok(mut found) => {
                let client = usize::from(found.joined.ends != ends);
                let way = self.begin_joined(&mut found, client, Behind::No, ended)?;
                (Fate::Joined(way.connection), Some(way))
            }
        };
        ended.fates.push(fate);
        ended.pairs.push(way);
        let (client, is_joined) = (way.map(|way| way.client), way.is_some());
        Ok((!cuts.is_empty()).then(|| Gapped { source, ends, client, cuts, last, tls: None, is_joined }))
    }

    /// The connections with holes that can go on behind them.
    fn with_holes(&mut self, gaps: Vec<Gap>, ended: &mut Ended) -> Vec<Gapped> {
        let mut gapped = Vec::new();
        for Gap { hole, connection, ends, cuts, last, why } in gaps {
            let tls = match self.table.take_bytes(connection) {
                Some(Bytes::Clear) => None,
                Some(Bytes::Tls(tls)) => Some(tls),
                None => continue,
            };
            let is_read = tls.as_ref().map_or(true, |tls| tls.goes_on());
            let why = why.or_else(|| (!is_read).then_some(Unjoined::Tls));
            let why = why.or_else(|| (gapped.len() >= MOST_FOLLOWED).then_some(Unjoined::ManyPairs));
            if let (Some(why), Some(cut)) = (why, cuts.first()) {
                let fate = Fate::Unjoined(NotJoined::Frames(why));
                ended.gaps.push(GapSaid { connection, side: cut.side, first: cut.first, fate });
                continue;
            }
            ended.holes.push((hole, connection));
            let (source, client) = (Source::Hole(hole), Some(CLIENT));
            gapped.push(Gapped { source, ends, client, cuts, last, tls, is_joined: false });
        }
        gapped
    }

    /// Writes what is made up for a connection, whose client has this flow.
    fn begin_joined(
        &mut self,
        found: &mut JoinedFlows,
        client: usize,
        behind: Behind,
        ended: &mut Ended,
    ) -> Result<Way, Early> {
        let JoinedFlows { joined, decrypted } = found;
        let mut records = joined.records();
        if records.first().map_or(false, |syn| self.table.has_opened(&joined.ends, syn.sequence())) {
            records = joined.other_records();
        }
        let connection = self.made(joined.first, &records)?.unwrap_or(0);
        let is_opened = decrypted.is_some();
        if let Some(decrypted) = decrypted {
            self.courses.iter_mut().for_each(|courses| courses.begin(connection, decrypted.initial));
            ended.decrypted.push((connection, decrypted.clone()));
        }
        let (how, bytes, place) = (joined.how.clone(), bytes_of(&records), ended.joined.len());
        let records = records.len() as u64;
        ended.joined.push(JoinedConnection { connection, how, records, bytes, behind, is_one_way: false });
        ended.captured.push([false; 2]);
        Ok(Way { connection, place, client, is_opened, is_direct: self.table.passes(&joined.ends) })
    }

    /// Writes records that are made up, and answers which connection they belong to.
    fn made(&mut self, arrival: Arrival, records: &[Made]) -> Result<Option<usize>, Early> {
        let mut connection = None;
        self.common.sink.is_made = true;
        for made in records {
            let (data, original) = (&made.datagram[..], made.datagram.len() as u32);
            let packet = Packet { nanos: arrival.nanos, link: Some(RAW), data, original };
            if let Ok(segment) = Decoder::default().segment(&packet)? {
                if let Ok(taken) = self.table.take(&mut self.common, arrival, &segment) {
                    connection = Some(taken.sender.connection);
                    self.courses.iter_mut().for_each(|courses| courses.made(&taken, arrival, &segment));
                }
            }
        }
        self.common.sink.is_made = false;
        Ok(connection)
    }

    /// Takes what waits; where there are gaps, behind them once more.
    fn take_all(&mut self, waiting: Option<Waiting>, gapped: Vec<Gapped>, ended: &mut Ended) -> Result<(), Early> {
        let waiting = match waiting {
            Some(waiting) if gapped.is_empty() => waiting,
            Some(waiting) => match self.follow_behind(waiting, gapped, ended)? {
                Some(waiting) => waiting,
                None => return Ok(()),
            },
            None => return Ok(()),
        };
        self.take_waiting(waiting, ended)
    }

    fn follow_behind(
        &mut self,
        waiting: Waiting,
        gapped: Vec<Gapped>,
        ended: &mut Ended,
    ) -> Result<Option<Waiting>, Early> {
        let (mut waiting, mut behind) = (waiting, Following::new(gapped));
        while let Some(waited) = waiting.next()? {
            let segment = waited.segment(&mut self.decoder)?;
            behind.take(self.common.shared, waited.known, &segment).map_err(failed)?;
        }
        let (parts, waiting) = behind.finish(self.common.shared, waiting.into_originals()).map_err(failed)?;
        ended.parts = parts.into_iter().map(Some).collect();
        ended.behind = vec![None; ended.parts.len()];
        Ok(waiting)
    }

    /// Takes the packets of connections that are joined to these. Where their records were opened, packets tell of TCP
    /// alone.
    fn take_waiting(&mut self, waiting: Waiting, ended: &mut Ended) -> Result<(), Early> {
        let mut waiting = waiting;
        while let Some(waited) = waiting.next()? {
            let known = &waited.known;
            let way = match known.source {
                Source::Pair(pair) => ended.pairs.get(pair).copied().flatten(),
                Source::Behind(part) => self.way_behind(part, ended)?,
                Source::Hole(_) => None,
            };
            if let Some(way) = way {
                ended.captured[way.place][known.flow ^ way.client] |= !known.is_plaintext;
                // Whoever wants no more of it than to write it gets it from its bytes.
                let is_written = self.courses.is_none() && way.passes(known);
                match is_written.then(|| waited.written()).flatten() {
                    Some(written) => self.table.pass(self.common.sink, way.sender(known), known.arrival, written),
                    None => self.take_waited(waited, way)?,
                }
                if is_written && !way.is_opened {
                    self.pass_waiting(&mut waiting, way, &mut ended.captured[way.place]);
                }
            }
        }
        // What has no packet to write begins here.
        (0..ended.parts.len()).try_for_each(|part| self.way_behind(part, ended).map(drop))
    }

    /// Writes what goes on with a connection, as long as it goes through as it stands.
    fn pass_waiting(&mut self, waiting: &mut Waiting, way: Way, captured: &mut [bool; 2]) {
        let (sink, table) = (&mut *self.common.sink, &mut self.table);
        waiting.go_on(|flow, arrival, written| {
            let side = flow ^ way.client;
            captured[side] = true;
            table.pass(sink, Sender { connection: way.connection, side }, arrival, written);
        });
    }

    /// Where what follows a gap goes, which begins with its first packet.
    fn way_behind(&mut self, part: usize, ended: &mut Ended) -> Result<Option<Way>, Early> {
        let Part { source, ends, client, first, flow, became } = match ended.parts.get_mut(part).and_then(Option::take)
        {
            None => return Ok(ended.behind.get(part).copied().flatten()),
            Some(part) => part,
        };
        let root = ended.root(source);
        let mut client = client.unwrap_or_default();
        let fate = match became {
            Err(why) => Fate::Unjoined(why),
            Ok(mut found) => {
                client = usize::from(found.joined.ends != ends);
                let behind = root.map_or(Behind::First, Behind::Gap);
                let way = self.begin_joined(&mut found, client, behind, ended)?;
                ended.behind[part] = Some(way);
                Fate::Joined(way.connection)
            }
        };
        match (root, source, fate) {
            (Some(connection), ..) => ended.gaps.push(GapSaid { connection, side: flow ^ client, first, fate }),
            (None, Source::Pair(pair), Fate::Joined(_)) => ended.fates[pair] = fate,
            (None, ..) => {}
        }
        Ok(ended.behind[part])
    }

    #[inline(never)]
    fn take_waited(&mut self, waited: Waited<'_>, way: Way) -> Result<(), Early> {
        let (known, segment) = (&waited.known, waited.segment(&mut self.decoder)?);
        let (sender, arrival) = (way.sender(known), known.arrival);
        match () {
            () if way.is_silent(known) => {}
            () if way.is_direct => self.table.pass(self.common.sink, sender, arrival, Written::whole(&segment)),
            () => drop(self.table.take(&mut self.common, arrival, &segment)),
        }
        if !known.is_plaintext {
            let taken = Taken { sender, opens: false };
            self.courses.iter_mut().for_each(|courses| courses.take(&taken, arrival, &segment));
        }
        Ok(())
    }
}
