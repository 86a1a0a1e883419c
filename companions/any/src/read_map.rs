//! Reads a map back (docs/MAP.md), for a report of what was imported with it: h2audit-any --map.

use std::io::{BufRead, BufReader};
use std::path::Path;

use originals::{Became, Joined, Original, OriginalConnection, Other, SideRead, Unopened};
use programs::{printable, Failure, Input};
use reports::maps::{MapError, MapLine, MapReader};
use reports::Capture;

const BUFFER: usize = 1 << 18;

/// What a map says of the one file that was imported.
pub fn read_map(path: &Path) -> Result<Original, Failure> {
    let no_map = |why: &str| Failure::Io(format!("{}: {why}", printable(path)));
    let input = BufReader::with_capacity(BUFFER, Input::open(path)?);
    let mut reading = Reading::default();
    match reading.read(input) {
        Ok(()) => {}
        Err(Broken::Io(error)) => return Err(Failure::of_file(path, &error)),
        Err(Broken::NoMap) => return Err(no_map("no map of h2audit-import, version 1 or 2")),
    }
    match reading.files {
        1 => Ok(reading.original),
        _ => Err(no_map("a map of several files, whose packets it does not number through")),
    }
}

enum Broken {
    NoMap,
    Io(std::io::Error),
}

impl From<MapError> for Broken {
    fn from(error: MapError) -> Broken {
        match error {
            MapError::Io(error) => Broken::Io(error),
            _ => Broken::NoMap,
        }
    }
}

/// The lines of a map as they come. What a report does not show is left out.
#[derive(Default)]
struct Reading {
    original: Original,
    files: u64,
    has_counts: bool,
    /// How many packets are too late to be put in order, where that was asked for.
    left: Option<u64>,
    connection: Option<ConnectionLines>,
}

/// The connection whose lines come.
struct ConnectionLines {
    opening: u64,
    began: Began,
    /// The flows so far.
    sides: Vec<SideRead>,
    fragments: u64,
    last: Option<i64>,
    /// How it was joined, if it was.
    joined: Vec<String>,
}

impl ConnectionLines {
    /// Takes a line behind the first.
    fn take(&mut self, words: &[&str]) -> Option<()> {
        match *words.first()? {
            "flow" => {
                let (tail, end) = (words.get(7)?.parse().ok()?, words.get(9)?.to_string());
                self.sides.push(SideRead { has_gap: *words.get(5)? != "none", tail, end });
            }
            "fragments" => self.fragments = words.get(1)?.parse().ok()?,
            _ => self.last = Some(words.get(6)?.parse().ok()?),
        }
        Some(())
    }
}

enum Began {
    Clear,
    Refused(String),
    Tls,
}

impl Reading {
    /// Takes all lines, and fails if they are no map, or not all of one.
    fn read(&mut self, input: impl BufRead) -> Result<(), Broken> {
        let mut reader = MapReader::with_joined(input)?;
        let mut is_whole = true;
        while let Some(line) = reader.next_line()? {
            match line {
                MapLine::Record { number, packet, .. } if number == self.original.records() + 1 => {
                    self.original.add_record(packet);
                }
                MapLine::Record { .. } => return Err(Broken::NoMap),
                MapLine::File { .. } => self.files += 1,
                MapLine::Other(text) => self.other(text).ok_or(Broken::NoMap)??,
            }
            is_whole = reader.is_whole();
        }
        self.enter().ok_or(Broken::NoMap)?;
        match is_whole && self.has_counts {
            true => Ok(()),
            false => Err(Broken::NoMap),
        }
    }

    /// Takes any other line. Answers none if it is broken, and an error if something could not be noted.
    fn other(&mut self, text: &str) -> Option<Result<(), Broken>> {
        let words: Vec<&str> = text.split(' ').collect();
        let number = |place: usize| words.get(place)?.parse::<u64>().ok();
        match *words.first()? {
            "address" => {
                let stand_in: std::net::Ipv4Addr = words.get(1)?.parse().ok()?;
                self.original.add_address(stand_in.octets(), words.get(2)?.to_string());
            }
            "passed" => {
                let why = words.get(5..)?.join(" ");
                return Some(self.original.add_passed(number(4)?, &why).map_err(Broken::Io));
            }
            "capture" => {
                self.original.capture = Capture::of(text)?;
                self.has_counts = true;
            }
            "unopened" => {
                let (first, second) = (words.get(1)?.to_string(), words.get(2)?.to_string());
                self.original.add_unopened((first, second), Unopened { segments: number(8)?, fate: None });
            }
            "connection" => self.begin(&words)?,
            "flow" | "fragments" | "last" => self.connection.as_mut()?.take(&words)?,
            _ if import::is_of_joined(text) => self.connection.as_mut()?.joined.push(text.to_string()),
            "reordered" => self.left = Some(number(6)?),
            "back" => self.original.back = Some(import::times_go_back(number(4)?, number(8)?, self.left)),
            "other" => {
                let name = words.get(3)?.to_string();
                self.original.others.push(Other { name, packets: number(5)? });
            }
            _ => {}
        }
        Some(Ok(()))
    }

    /// Begins with the first line of a connection.
    fn begin(&mut self, words: &[&str]) -> Option<()> {
        self.enter()?;
        let began = match *words.get(9)? {
            "clear" => Began::Clear,
            "tls" => Began::Tls,
            "refused" => Began::Refused(words.get(10..)?.join(" ")),
            _ => return None,
        };
        let (opening, sides, joined) = (words.get(8)?.parse().ok()?, Vec::new(), Vec::new());
        self.connection = Some(ConnectionLines { opening, began, sides, fragments: 0, last: None, joined });
        Some(())
    }

    /// Enters the connection whose lines came: the flow of a TLS client comes first, and both are there.
    fn enter(&mut self) -> Option<()> {
        if let Some(told) = self.connection.take() {
            let became = match told.began {
                Began::Clear => Became::Clear,
                Began::Refused(reason) => Became::Refused(reason),
                Began::Tls => Became::Read(told.sides.try_into().ok()?),
            };
            let (fragments, last) = (told.fragments, told.last);
            self.original.add_connection(told.opening, OriginalConnection { became, fragments, last });
            if !told.joined.is_empty() {
                let import::JoinedLines { how, bytes, is_one_way } = import::joined_said(&told.joined)?;
                self.original.add_joined(told.opening, Joined::of(&how, bytes, is_one_way, told.joined));
            }
        }
        Some(())
    }
}

#[cfg(test)]
mod tests {
    use mutations::changed;
    use originals::bring_back;

    use super::Reading;

    const INTERESTING: [&[u8]; 8] =
        [b"\n", b" ", b"18446744073709551615", b"connection ", b"frame ", b"\xff", b"refused", b"flow client "];
    const MAP: &[u8] = b"h2audit-map 2\nfile 1 a.pcap\naddress 240.0.0.1 2001:db8::1\nrecord 1 file 1 packet 1\n\
        record 2 file 1 packet 4\nrecord 3 file 1 packet 9\npassed file 1 packet 3 fragment\n\
        capture records 9 segments 8 snapped 0 not-ipv4 0 fragments 1 not-tcp 0 refused 0\n\
        unopened [2001:db8::1]:9 10.0.0.2:2 file 1 packet 2 segments 4\njoined-as 2\n\
        connection client [2001:db8::1]:1 server 10.0.0.2:2 file 1 packet 1 tls 1.3 SUITE alpn h2 records 7\n\
        flow client bytes 9 gap none tail 5 end cut\nflow server bytes 7 gap 7 tail 0 end no-key\nfragments 1\n\
        last file 1 packet 9 time 20\n\
        connection client 10.0.0.1:1 server 10.0.0.2:2 file 1 packet 4 refused no-key\n";
    const REPORT: &[u8] = b"capture records 3 segments 3 snapped 0 not-ipv4 0 fragments 0 not-tcp 0 refused 0\n\
        unopened 240.0.0.1:9 10.0.0.2:2 segments 1\n\
        connection 1 client 240.0.0.1:1 server 10.0.0.2:2 record 1 http2 frames 2\n\
        flow client bytes 9 gap none tail 1\nflow server bytes 7 gap 7 tail 0\n\
        frame 1 record 3 time 5 client stream-overrun stream 1 value -5\n\
        frame 1 record 3 time 5 server stream-stall-begin stream 1 value 0\n\
        frame 2 record 3 time 7 server stream-stall-end stream 1 value 9\n\
        frame 2 record 3 time 8 server connection-stall-begin stream 0 value 0\n\
        stall server stream 1 from 1 to 2 nanos 2\nstall server stream 0 from 2 open\naudit stopped at frame 2\n\
        connection 2 client 10.0.0.1:1 server 10.0.0.2:2 record 2 no-preface\nflow client bytes 0 gap none tail 0\n";
    const WANTED: &str = "capture records 9 segments 8 snapped 0 not-ipv4 0 fragments 1 not-tcp 0 refused 0\n\
        record 3 fragment\nunopened [2001:db8::1]:9 10.0.0.2:2 segments 4\n\
        connection 1 client [2001:db8::1]:1 server 10.0.0.2:2 record 1 http2 frames 2\nfragments 1\n\
        flow client bytes 9 gap none tail 6\nflow server bytes 7 gap 7 tail 0 end no-key\n\
        frame 1 record 9 time 5 client stream-overrun stream 1 value -5\n\
        frame 1 record 9 time 5 server stream-stall-begin stream 1 value 0\n\
        frame 2 record 9 time 7 server stream-stall-end stream 1 value 9\n\
        frame 2 record 9 time 8 server connection-stall-begin stream 0 value 0\n\
        stall server stream 1 from 1 to 2 nanos 2\nstall server stream 0 from 2 open\naudit stopped at frame 2\n\
        connection 2 client 10.0.0.1:1 server 10.0.0.2:2 record 4 refused no-key\n";
    const ROWS: &str = r#"h2audit-rows 3
["captures",9,8,0,0,1,0,0]
["passed_over",3,"fragment"]
["unopened",1,"[2001:db8::1]:9","10.0.0.2:2",4,null]
["findings",1,1,1,9,5,"client","stream-overrun",1,-5,"client",null]
["findings",1,2,1,9,5,"server","stream-stall-begin",1,0,"nobody",null]
["findings",1,3,2,9,7,"server","stream-stall-end",1,9,"nobody",null]
["findings",1,4,2,9,8,"server","connection-stall-begin",0,0,"nobody",null]
["stalls",1,5,"server",1,1,2,2,"client",null]
["stalls",1,6,"server",0,2,null,12,"client",null]
["connections",1,"[2001:db8::1]:1","10.0.0.2:2",1,"http2",2,9,null,6,null,7,7,0,"no-key",2,null]
["connections",2,"10.0.0.1:1","10.0.0.2:2",4,"refused no-key",null,null,null,null,null,null,null,null,null,null,null]
"#;

    /// The report of the original and its rows, where map and report are some.
    fn brought_back(map: &[u8], report: &[u8]) -> Option<(String, String)> {
        let (mut reading, mut out, mut rows) = (Reading::default(), Vec::new(), Vec::new());
        reading.read(map).ok()?;
        bring_back(report, &mut reading.original, &mut out, Some(&mut rows)).ok()?;
        Some((String::from_utf8(out).ok()?, String::from_utf8(rows).ok()?))
    }

    #[test]
    fn each_line_is_about_the_original() {
        assert_eq!(brought_back(MAP, REPORT), Some((WANTED.to_string(), ROWS.to_string())));
    }

    /// A map of an earlier version has no last packets.
    #[test]
    fn an_open_stall_without_an_end() {
        let map = String::from_utf8_lossy(MAP).replace("last file 1 packet 9 time 20\n", "");
        let rows = ROWS.replace("null,12,", "null,null,");
        assert_eq!(brought_back(map.as_bytes(), REPORT), Some((WANTED.to_string(), rows)));
    }

    #[test]
    fn mutated_maps_and_reports() {
        mutations::each(20_000, |dice| {
            let (map, report) = match dice.below(2) {
                0 => (changed(MAP, dice, &INTERESTING), REPORT.to_vec()),
                _ => (MAP.to_vec(), changed(REPORT, dice, &INTERESTING)),
            };
            brought_back(&map, &report);
        });
    }
}
