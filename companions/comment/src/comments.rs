//! The comments of each packet.

use std::collections::HashMap;

use programs::printable;
use reports::{count, grouped, Note};

use crate::answered::Said;
use crate::ended::Ended;
use crate::windows::Setters;

/// A packet takes so many bytes of comments. Each has a length of 16 bits, and Wireshark reads no block above 16 MiB.
const MOST_BYTES: usize = 4 << 20;

/// What a report finds.
#[derive(Default)]
pub struct Findings {
    pub notes: Vec<Note>,
    /// The packets that set the windows of overruns, by the number of the note.
    pub setters: HashMap<usize, Setters>,
    /// The names of other files than the capture, by their numbers in a map.
    pub files: HashMap<u64, Vec<u8>>,
    /// Comments that need nothing more.
    pub said: Vec<Said>,
}

impl Findings {
    /// The packets of all comments: of the notes, none for those of another file, and then of what is said.
    fn packets(&self) -> impl Iterator<Item = Option<u64>> + '_ {
        let notes = self.notes.iter().map(|note| Some(note.packet).filter(|_| note.file.is_none()));
        notes.chain(self.said.iter().map(|said| Some(said.packet)))
    }

    fn packet(&self, number: usize) -> u64 {
        match self.notes.get(number) {
            Some(note) => note.packet,
            None => self.said[number - self.notes.len()].packet,
        }
    }
}

/// Hands out the comments of each packet, in the order of the packets.
pub struct Comments {
    findings: Findings,
    /// The comments of this capture, in the order of their packets: notes, and then what is said.
    order: Vec<usize>,
    at: usize,
}

impl Comments {
    pub fn new(findings: Findings) -> Result<Comments, Ended> {
        let here = findings.packets().enumerate().filter(|(_, packet)| packet.is_some());
        let mut order: Vec<usize> = here.map(|(number, _)| number).collect();
        order.sort_by_key(|number| findings.packet(*number));
        match order.first() {
            Some(first) if findings.packet(*first) < 1 => Err(Ended::report_refused("it names a packet 0")),
            _ => Ok(Comments { findings, order, at: 0 }),
        }
    }

    /// Whether the packet that comes next has comments.
    pub fn has(&self, packet: u64) -> bool {
        self.next_packet() == Some(packet)
    }

    fn next_packet(&self) -> Option<u64> {
        self.order.get(self.at).map(|number| self.findings.packet(*number))
    }

    /// The comments of the packet that comes next, whose time is known in nanoseconds unless it is none.
    pub fn of(&mut self, packet: u64, nanos: Option<i64>) -> Result<Vec<String>, Ended> {
        let begin = self.at;
        while self.next_packet() == Some(packet) {
            let time = self.findings.notes.get(self.order[self.at]).map(|note| i128::from(note.finding.time));
            if matches!((nanos, time), (Some(nanos), Some(time)) if i128::from(nanos) != time) {
                return Err(Ended::report_refused(format!(
                    "packet {packet} has another time than the report says: is it of this capture?"
                )));
            }
            self.at += 1;
        }
        Ok(self.bounded(&self.order[begin..self.at]))
    }

    /// After the last packet: each note has to have found its own.
    pub fn finish(&self, packets: u64) -> Result<(), Ended> {
        match self.next_packet() {
            None => Ok(()),
            Some(packet) => Err(Ended::report_refused(format!(
                "it names packet {packet}, and the capture has {}",
                count(packets, "whole packet")
            ))),
        }
    }

    /// The comments of one packet; where a block cannot hold them, the last one says how many are left out.
    fn bounded(&self, numbers: &[usize]) -> Vec<String> {
        let mut comments = Vec::with_capacity(numbers.len());
        let mut size = 0;
        for (place, number) in numbers.iter().enumerate() {
            let comment = self.comment(*number);
            size += comment.len() + 8;
            if size > MOST_BYTES {
                let left = count((numbers.len() - place) as u64, "other finding");
                comments.push(format!("h2audit: and {left}, which the report has"));
                break;
            }
            comments.push(comment);
        }
        comments
    }

    fn comment(&self, number: usize) -> String {
        match self.findings.notes.get(number) {
            Some(note) => self.sentence(number, note),
            None => self.findings.said[number - self.findings.notes.len()].text.clone(),
        }
    }

    fn sentence(&self, number: usize, note: &Note) -> String {
        let other = note.other.map(|other| &self.findings.notes[other]);
        let set = self.findings.setters.get(&number).map(|setters| self.set_by(setters)).unwrap_or_default();
        let place = |note: &Note| format!("packet {}", self.place(note.packet, note.file));
        format!("h2audit: HTTP/2 frame {}: {}", note.finding.frame, note.sentence(other, place, &set))
    }

    fn place(&self, packet: u64, file: Option<u64>) -> String {
        match file {
            None => packet.to_string(),
            Some(file) => format!("{packet} of {}", self.name_of(file)),
        }
    }

    fn name_of(&self, file: u64) -> String {
        use std::ffi::OsStr;
        use std::os::unix::ffi::OsStrExt;
        match self.findings.files.get(&file) {
            Some(path) => {
                let name = path.rsplit(|byte| *byte == b'/').next().unwrap_or_default();
                printable(OsStr::from_bytes(name))
            }
            None => format!("file {file}"),
        }
    }

    /// Which packets set the window of an overrun.
    fn set_by(&self, setters: &Setters) -> String {
        let named: Vec<String> = setters.last.iter().map(|packet| self.place(packet.number, packet.file)).collect();
        match named.split_last() {
            None => ", a window that no packet had changed".to_string(),
            Some((last, [])) => format!(", a window that packet {last} set"),
            Some((last, before)) => {
                let packets = format!("{} and {last}", before.join(", "));
                match setters.count > setters.last.len() as u64 {
                    true => format!(", a window that {} packets set, last {packets}", grouped(setters.count)),
                    false => format!(", a window that packets {packets} set"),
                }
            }
        }
    }
}
