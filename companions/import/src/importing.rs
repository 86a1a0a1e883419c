//! The pipeline: from files to the capture that is made, and what listens to it.

mod early;
mod join;

use std::collections::HashMap;
use std::ffi::{OsStr, OsString};
use std::fs::File;

use captures::{
    pcapng, Arrival, Decoder, Ends, Error, Fragment, Item, Packet, PassedOver, Reader, Segment, Source, STANDARD_INPUT,
};
use programs::{is_typed, printable, say, Failure, Progress};
use reports::{count, Capture};
use tls::Shared;

use crate::bounds::Bounds;
use crate::common::Common;
use crate::course::Courses;
use crate::importing::early::Early;
use crate::joining::Joining;
use crate::others::Others;
use crate::outcomes::{Back, Older, Summary};
use crate::reorder::{Held, Reorder};
use crate::sink::Sink;
use crate::table::Table;

/// Datagrams whose fragments are known to be of some connection.
const MOST_FRAGMENTED: usize = 1 << 12;
/// So often it is looked whether something went wrong in writing.
const MOST_BETWEEN_LOOKS: u64 = 0x3FF;

/// What is imported.
pub struct ImportOptions<'a> {
    pub program: &'a str,
    /// In the order in which they are read; standard input where there is none.
    pub files: &'a [OsString],
    pub key_logs: &'a [OsString],
    /// Whether packets are put in order of time.
    pub is_reordered: bool,
    /// Whether connections that began before the capture are joined.
    pub is_joined: bool,
    /// How far is searched for what opens those of TLS.
    pub bounds: Bounds,
    /// Whether what is made can be taken back, so that the files are read once more where that gives more keys.
    pub can_repeat: bool,
}

/// Reads all files into the sink; once more where the sessions in them show secrets for more connections. What was
/// passed over of files and key logs is said on standard error. What TCP did is noted where that is asked for.
pub fn imported(
    asked: &ImportOptions<'_>,
    sink: &mut Sink<'_>,
    mut courses: Option<&mut Courses>,
) -> Result<Summary, Failure> {
    let standard = [OsString::from(STANDARD_INPUT)];
    let files = if asked.files.is_empty() { &standard[..] } else { asked.files };
    let mut shared = Shared::default();
    shared.search = asked.bounds.search();
    read_keys(asked, files, &mut shared)?;
    shared.keys.waits_for_sessions = shared.more_keys || !asked.can_repeat;
    let mut common = Common { shared: &mut shared, sink };
    let (mut summary, missed) = read_through(asked, files, common.lent(), courses.as_deref_mut(), true)?;
    if !missed.is_empty() {
        common.sink.begin_anew()?;
        common.shared.sessions = Default::default();
        common.shared.search = asked.bounds.search();
        common.shared.keys.add_text(&missed);
        summary = read_through(asked, files, common, courses, false)?.0;
    }
    asked.bounds.said(&summary).iter().for_each(|words| say(asked.program, words));
    Ok(summary)
}

/// Reads the keys that are known before the capture is read, and whether more may come in it.
fn read_keys(asked: &ImportOptions<'_>, files: &[OsString], shared: &mut Shared) -> Result<(), Failure> {
    for path in asked.key_logs {
        let read = File::open(path).and_then(|file| shared.keys.read(file));
        read.map_err(|error| Failure::of_file(path, &error))?;
    }
    let _looking = Progress::begin(asked.program, "looking for keys", bytes_of(files));
    for path in files {
        if !Source::can_be_read_twice(path).map_err(|error| Failure::of_file(path, &error))? {
            shared.more_keys = true;
            continue;
        }
        let opened = Source::open_counted(path, Progress::add);
        let scanned = opened.and_then(|mut source| match source.fill(4)? == pcapng::MAGIC {
            true => pcapng::secrets_in(source, |text| drop(shared.keys.add_text(text))),
            false => Ok(()),
        });
        match scanned {
            Err(Error::Io(error)) => return Err(Failure::of_file(path, &error)),
            Ok(()) | Err(Error::Refused(_)) => {} // refusals are for the reading of the packets
        }
    }
    let bad = shared.keys.bad_lines;
    if bad > 0 {
        let (are, were) = if bad == 1 { ("is no secret", "was") } else { ("are no secrets", "were") };
        say(asked.program, &format!("{} of the key logs {are}, and {were} passed over", count(bad, "line")));
    }
    Ok(())
}

fn read_through(
    asked: &ImportOptions<'_>,
    files: &[OsString],
    common: Common<'_, '_>,
    courses: Option<&mut Courses>,
    is_first: bool,
) -> Result<(Summary, Vec<u8>), Failure> {
    let courses = courses.map(|courses| {
        *courses = Courses::default();
        courses
    });
    let reorder = asked.is_reordered.then(Reorder::default);
    let mut importer = Importer::new(common, courses, reorder);
    importer.joining = asked.is_joined.then(Joining::default);
    importer.table.is_joining = asked.is_joined;
    let is_waited_for = files.iter().any(|path| path == STANDARD_INPUT) && is_typed();
    let doing = if is_first { "reading" } else { "reading once more" };
    let reading = (!is_waited_for).then(|| Progress::begin(asked.program, doing, bytes_of(files)));
    for path in files {
        if path == STANDARD_INPUT && is_first && is_waited_for {
            say(asked.program, "a capture is read from standard input: tcpdump -w - | .., or --help");
        }
        let has_bytes_behind = importer.file(path).map_err(|problem| problem.failure(Some(path)))?;
        if has_bytes_behind && is_first {
            let path = printable(path);
            say(asked.program, &format!("{path}: bytes behind the end of what gzip packed were passed over"));
        }
    }
    drop(reading);
    let _finishing = Progress::begin(asked.program, "finishing", None);
    importer.finish().map_err(|problem| problem.failure(None))
}

/// How many bytes all files have, if that is known.
fn bytes_of(files: &[OsString]) -> Option<u64> {
    files.iter().map(|path| Source::size(path).ok().flatten()).sum()
}

/// Takes files, and hands their segments to the table of connections.
struct Importer<'a, 'b> {
    common: Common<'a, 'b>,
    courses: Option<&'a mut Courses>,
    reorder: Option<Reorder>,
    decoder: Decoder,
    table: Table,
    /// How many were read.
    packets: u64,
    dropped: u64,
    counts: Capture,
    others: Others,
    last: Option<i64>,
    back: Option<Back>,
    fragmented: HashMap<([u8; 8], u32), Ends>,
    joining: Option<Joining>,
}

impl<'a, 'b> Importer<'a, 'b> {
    fn new(common: Common<'a, 'b>, courses: Option<&'a mut Courses>, reorder: Option<Reorder>) -> Importer<'a, 'b> {
        Importer {
            common,
            courses,
            reorder,
            decoder: Decoder::default(),
            table: Table::default(),
            packets: 0,
            dropped: 0,
            counts: Capture::default(),
            others: Others::default(),
            last: None,
            back: None,
            fragmented: HashMap::new(),
            joining: None,
        }
    }

    /// Reads a file, and answers whether bytes stood behind the end of what gzip packed.
    fn file(&mut self, path: &OsStr) -> Result<bool, Early> {
        let source = self.common.sink.source(path)?;
        self.common.sink.listener.begin_file(path, self.packets);
        let mut reader = Reader::new(source)?;
        self.common.sink.begin_original(&reader);
        self.begin_original(path, &reader)?;
        while let Some(item) = self.next_of(&mut reader)? {
            match item {
                Item::Packet(packet) => self.read(&packet)?,
                Item::Secrets(text) => self.secrets(text),
                Item::Cut => self.common.sink.listener.passed(self.packets + 1, "cut"),
            }
            if self.common.sink.has_problem() {
                break;
            }
        }
        self.look_for_problems()?;
        self.dropped = self.dropped.saturating_add(reader.dropped());
        Ok(reader.source().has_bytes_behind())
    }

    fn look_for_problems(&mut self) -> Result<(), Early> {
        match self.common.sink.take_problem() {
            None => Ok(()),
            Some(problem) => Err(Early::Problem(problem)),
        }
    }

    /// Numbers a packet that was read. Where packets are put in order, those are taken before which no other can come.
    fn read(&mut self, packet: &Packet<'_>) -> Result<(), Early> {
        self.packets += 1;
        if self.packets & MOST_BETWEEN_LOOKS == 0 {
            self.look_for_problems()?;
        }
        match &mut self.reorder {
            None => self.packet(self.packets, packet),
            Some(reorder) => {
                reorder.add(self.packets, packet);
                self.in_order(Reorder::due)
            }
        }
    }

    /// Takes packets in their new order, as long as some are given.
    fn in_order(&mut self, next: fn(&mut Reorder) -> Option<Held>) -> Result<(), Early> {
        while let Some(held) = self.reorder.as_mut().and_then(next) {
            self.packet(held.number(), &held.packet())?;
        }
        Ok(())
    }

    fn packet(&mut self, number: u64, packet: &Packet<'_>) -> Result<(), Early> {
        let arrival = Arrival { packet: number, nanos: packet.nanos };
        if packet.link.is_some() {
            self.look_at_time(arrival);
        }
        // What was found is not moved: it is large.
        let decoded = self.decoder.segment(packet);
        self.common.sink.look_at(packet, decoded.as_ref().ok().and_then(|found| found.as_ref().ok()));
        let segment = match &decoded {
            Ok(Ok(segment)) => segment,
            Ok(Err(why)) => {
                self.pass_over(number, why);
                return Ok(());
            }
            Err(_) => return decoded.map(|_| ()).map_err(Early::from),
        };
        self.counts.segments += 1;
        self.counts.snapped += u64::from(segment.is_snapped);
        if self.decoder.has_addresses() {
            self.name_addresses();
        }
        if self.joining.as_ref().map_or(false, |joining| joining.may_lack_answer(segment)) {
            self.look_for_answer(arrival, segment)?;
        }
        let taken = self.table.take(&mut self.common, arrival, segment);
        if let (Ok(taken), Some(courses)) = (&taken, &mut self.courses) {
            courses.take(taken, arrival, segment);
        }
        let kept = match (&mut self.joining, &taken) {
            (Some(joining), Ok(taken)) => joining.opened(taken, arrival, segment),
            (Some(joining), Err(stray)) => {
                self.common.sink.depart(); // packets of what is joined come behind all others
                joining.take(self.common.shared, *stray, arrival, segment)
            }
            (None, _) => Ok(()),
        };
        kept.map_err(Early::from)
    }

    #[inline(never)]
    fn look_for_answer(&mut self, arrival: Arrival, segment: &Segment<'_>) -> Result<(), Early> {
        let answer = self.joining.as_mut().and_then(|joining| joining.lost_answer(segment));
        answer.map_or(Ok(()), |headers| self.answer(arrival, &headers))
    }

    fn look_at_time(&mut self, arrival: Arrival) {
        let before = self.last.replace(arrival.nanos).unwrap_or(arrival.nanos);
        if arrival.nanos < before {
            let nanos = before.abs_diff(arrival.nanos);
            self.back.get_or_insert_with(Back::default).add(Older { arrival, nanos });
        }
    }

    fn name_addresses(&mut self) {
        for (stand_in, original) in self.decoder.take_addresses() {
            self.common.sink.listener.address(stand_in, original);
        }
    }

    #[inline(never)]
    fn pass_over(&mut self, number: u64, why: &PassedOver) {
        self.others.add(why);
        match why {
            PassedOver::NotIp(_) => self.counts.not_ipv4 += 1,
            PassedOver::NotTcp(..) => self.counts.not_tcp += 1,
            PassedOver::Refused(why) => {
                self.counts.refused += 1;
                self.common.sink.listener.passed(number, &format!("refused {why}"));
            }
            PassedOver::Fragment(fragment) => {
                self.counts.fragments += 1;
                if let Some(fragment) = fragment {
                    self.count_fragment(fragment);
                }
                self.common.sink.listener.passed(number, "fragment");
            }
        }
    }

    /// Counts a fragment at its connection: the first one of a datagram has the ports.
    fn count_fragment(&mut self, fragment: &Fragment) {
        let datagram = (fragment.addresses, fragment.identification);
        if let Some(ports) = fragment.ports {
            let mut ends = [0; 12];
            ends[..8].copy_from_slice(&fragment.addresses);
            ends[8..].copy_from_slice(&ports);
            if self.fragmented.len() >= MOST_FRAGMENTED {
                self.fragmented.clear();
            }
            self.fragmented.insert(datagram, ends);
        }
        if let Some(ends) = self.fragmented.get(&datagram) {
            self.table.fragment(ends);
        }
    }

    fn secrets(&mut self, text: &[u8]) {
        if self.common.shared.more_keys {
            let randoms = self.common.shared.keys.add_text(text);
            self.table.keys_came(&mut self.common, &randoms);
        }
    }

    /// Ends all connections, and answers what the map says last; and lines of a key log with which more could be read,
    /// from the beginning.
    fn finish(mut self) -> Result<(Summary, Vec<u8>), Early> {
        self.in_order(Reorder::take)?;
        self.table.ask_for_sessions(self.common.shared);
        let mut missed = tls::lines_for(&self.common.shared.sessions, &self.common.shared.keys);
        if !missed.is_empty() && self.common.shared.keys.waits_for_sessions {
            let randoms = self.common.shared.keys.add_text(&std::mem::take(&mut missed));
            self.table.keys_came(&mut self.common, &randoms);
        }
        self.counts.records = self.packets;
        let mut ended = self.join()?;
        // All segments came: what is known of each connection for them goes before its outcomes are put together.
        if let Some(courses) = self.courses.as_deref_mut() {
            courses.finish();
        }
        let (mut outcomes, mut unopened) = std::mem::take(&mut self.table).finish_all(&mut self.common);
        ended.complete(&mut outcomes, &mut unopened);
        self.common.sink.look_at_count(self.counts.segments);
        let summary = Summary {
            joined: std::mem::take(&mut ended.joined),
            gaps: std::mem::take(&mut ended.gaps),
            counts: self.counts,
            dropped: self.dropped,
            back: self.back.take(),
            reordered: self.reorder.as_ref().map(Reorder::done),
            others: self.others.most_seen(),
            unopened,
            outcomes,
        };
        self.common.sink.listener.finish(&summary);
        self.look_for_problems()?;
        Ok((summary, missed))
    }
}
