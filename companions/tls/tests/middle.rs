//! Real captures whose first packets are left out: what is read from the middle of their connections on is what was
//! sent, as `tests/tls/X.records` has it, which another program made.

use std::collections::HashMap;
use std::fs::{self, File};
use std::path::{Path, PathBuf};

use captures::{flags, placed, swapped, Arrival, Decoder, Ends, Item, Reader, Source};
use tls::{Emit, Known, Reason, Shared, TlsConnection, CLIENT, SERVER};

/// A record's packet, side, digest and length.
type Row = (u64, usize, String, usize);

fn folder() -> PathBuf {
    Path::new(env!("CARGO_MANIFEST_DIR")).join("../../tests/tls")
}

fn rows(name: &str) -> Vec<Row> {
    let text = fs::read_to_string(folder().join(name).with_extension("records")).unwrap();
    let row = |line: &str| {
        let words: Vec<_> = line.split(' ').collect();
        (words[0].parse().unwrap(), words[1].parse().unwrap(), words[2].to_string(), words[3].parse().unwrap())
    };
    text.lines().map(row).collect()
}

#[derive(Default)]
struct Plain(Vec<Row>);

impl Emit for Plain {
    fn emit(&mut self, side: usize, content: &[u8], arrival: Arrival) {
        let digest = openssl::sha::sha1(content).iter().map(|byte| format!("{byte:02x}")).collect();
        self.0.push((arrival.packet, side, digest, content.len()));
    }
}

/// A connection of which the first packets are left out.
struct Cut {
    connection: TlsConnection,
    plain: Plain,
    /// The number before that of the first byte of each side.
    initial: [Option<u32>; 2],
    /// Before its end.
    has_records: bool,
}

impl Cut {
    /// What was read, by sides as they are.
    fn rows(&self) -> impl Iterator<Item = Row> + '_ {
        let client = self.connection.client().unwrap_or(CLIENT);
        self.plain.0.iter().map(move |(packet, side, digest, length)| (*packet, side ^ client, digest.clone(), *length))
    }
}

/// The connections of a capture behind so many packets, and how many packets there are.
fn read(name: &str, before: u64) -> (Vec<Cut>, u64) {
    let file = ["pcap", "pcapng"].map(|form| folder().join(name).with_extension(form));
    let file = file.iter().find(|file| file.exists()).unwrap();
    let mut shared = Shared::default();
    shared.keys.read(File::open(folder().join(name).with_extension("keys")).unwrap()).unwrap();
    read_file(file, shared, before)
}

fn read_file(file: &Path, mut shared: Shared, before: u64) -> (Vec<Cut>, u64) {
    let mut reader = Reader::new(Source::open(file.as_ref()).ok().unwrap()).ok().unwrap();
    let mut decoder = Decoder::default();
    let (mut places, mut cuts, mut number) = (HashMap::<Ends, usize>::new(), Vec::<Cut>::new(), 0);
    while let Some(Item::Packet(packet)) = reader.next().ok().unwrap() {
        number += 1;
        let segment = match decoder.segment(&packet).ok().unwrap() {
            Ok(segment) if number > before && segment.has_payload() => segment,
            _ => continue,
        };
        let other = swapped(&segment.ends);
        let pair = segment.ends.min(other);
        let place = *places.entry(pair).or_insert(cuts.len());
        if place == cuts.len() {
            let connection = TlsConnection::from_middle(place as u64, &shared);
            cuts.push(Cut { connection, plain: Plain::default(), initial: [None; 2], has_records: false });
        }
        let Cut { connection, plain, initial, .. } = &mut cuts[place];
        let side = usize::from(segment.ends != pair);
        let is_syn = u32::from(segment.flags & flags::SYN != 0);
        let initial = *initial[side].get_or_insert((segment.sequence + is_syn).wrapping_sub(1));
        if let Some((offset, data)) = placed(initial, segment.sequence, segment.flags, segment.payload()) {
            let arrival = Arrival { packet: number, nanos: packet.nanos };
            connection.segment(&mut shared, plain, side, offset, data, arrival);
        }
    }
    cuts.iter_mut().for_each(|cut| cut.has_records = cut.connection.has_records());
    let known = Known { is_snapped: false, has_answer: false, has_client_ended: false };
    cuts.iter_mut().for_each(|cut| cut.connection.finish(&mut shared, &mut cut.plain, &known));
    (cuts, number)
}

/// Cuts of a capture, and what is read behind each.
fn cuts(name: &str) -> impl Iterator<Item = (u64, Vec<Cut>)> + '_ {
    let packets = read(name, 0).1;
    let tenths = (0..10).map(move |tenth| packets * tenth / 10);
    tenths.chain([1, 7, 13, 25, packets - 9]).map(move |before| (before, read(name, before).0))
}

/// All records of each side behind the cut are read but the first ones, so many at most: what the cut divides.
fn check(name: &str, most: usize) {
    let (all, mut count) = (rows(name), 0);
    for (before, connections) in cuts(name) {
        let found: Vec<Row> = connections.iter().flat_map(Cut::rows).collect();
        count += found.len();
        for side in [CLIENT, SERVER] {
            let of_side = |row: &&Row| row.0 > before && row.1 == side;
            let wanted: Vec<&Row> = all.iter().filter(of_side).collect();
            let found: Vec<&Row> = found.iter().filter(of_side).collect();
            let missing = wanted.len() - found.len();
            assert_eq!(found, wanted[missing..], "{name} from {before} on");
            assert!(missing <= most, "{name} from {before} on: {missing} of side {side}");
        }
    }
    assert!(count > all.len());
}

#[test]
fn tls_1_3_of_one_connection() {
    let names = ["nghttp-nghttpd-13", "small-window-v6", "curl-nginx-13-v6-any-sll2", "curl-apache-upload"];
    names.iter().chain(&["stream-overrun-go"]).for_each(|name| check(name, 1));
}

#[test]
fn key_updates() {
    check("key-updates", 1);
}

/// What TCP lost before the cut, and sent again behind it, may come before the first byte that is known.
#[test]
fn loss_and_reordering() {
    check("loss-and-reordering", 11);
}

/// All records behind the cut but those that it divides, one of a side.
#[test]
fn many_connections() {
    let (all, mut count) = (rows("h2load-node-many"), 0);
    for (before, connections) in cuts("h2load-node-many") {
        let found: Vec<Row> = connections.iter().flat_map(Cut::rows).collect();
        let wanted = all.iter().filter(|row| row.0 > before).count();
        assert!(found.iter().all(|row| all.contains(row)));
        assert!(found.len() + 2 * connections.len() >= wanted, "from {before} on: {} of {wanted}", found.len());
        assert!(connections.iter().all(|cut| cut.connection.refused().is_none()));
        count += found.len();
    }
    assert!(count > all.len());
}

#[test]
fn tls_1_2_is_refused() {
    let packets = read("curl-nginx-12-any-cooked", 0).1;
    for before in [packets / 2, packets - 30] {
        let cuts = read("curl-nginx-12-any-cooked", before).0;
        assert_eq!(cuts.iter().map(|cut| cut.connection.refused()).collect::<Vec<_>>(), [Some(Reason::NoServerRandom)]);
    }
}

/// No connection in the clear looks like records of TLS.
#[test]
fn nothing_in_the_clear_is_taken_for_tls() {
    let examples = Path::new(env!("CARGO_MANIFEST_DIR")).join("../../examples");
    let mut count = 0;
    for entry in fs::read_dir(examples).unwrap() {
        let path = entry.unwrap().path();
        if path.extension().map_or(false, |form| form == "pcap") && !path.with_extension("keys").exists() {
            for before in [0, 3, 11, 29] {
                let (cuts, _) = read_file(&path, Shared::default(), before);
                assert!(cuts.iter().all(|cut| !cut.has_records), "{path:?} {before}");
                count += cuts.len();
            }
        }
    }
    assert!(count > 20, "{count}");
}

/// One connection of TLS has no key, and others are in the clear.
#[test]
fn others_are_refused() {
    let (cuts, _) = read("mixed", 5);
    let all = rows("mixed");
    assert!(cuts.iter().flat_map(Cut::rows).all(|row| all.contains(&row)));
    let refused: Vec<_> = cuts.iter().map(|cut| cut.connection.refused()).collect();
    let searched = Some(Reason::SearchedNumbers(Shared::default().search.numbers));
    assert_eq!(refused.iter().filter(|why| **why == searched).count(), 1, "{refused:?}");
    assert_eq!(refused.iter().filter(|why| why.is_none()).count(), 3, "{refused:?}");
    assert!(cuts.iter().filter(|cut| cut.connection.refused().is_none()).all(|cut| cut.connection.count() > 0));
    assert!(cuts.iter().all(|cut| cut.connection.side(SERVER).skipped() < 1 << 14));
}
