//! Captures whose packets stand late in the file, beside the same ones in order of time.

mod common;

use std::fs::File;
use std::path::{Path, PathBuf};

use captures::{pcap, Arrival, Item, Reader, Source};
use import::{Courses, Record, Reordered};
use mutations::Dice;

const SECOND: i64 = 1_000_000_000;

/// A packet with its link type.
#[derive(Clone)]
struct Packet {
    nanos: i64,
    link: u16,
    data: Vec<u8>,
    original: u32,
}

/// The packets of a capture in order of time, where all have one link type.
fn packets_of(path: &Path) -> Option<Vec<Packet>> {
    let mut reader = Reader::new(Source::open(path.as_ref()).ok()?).ok()?;
    let mut packets = Vec::new();
    while let Ok(Some(item)) = reader.next() {
        if let Item::Packet(packet) = item {
            let captures::Packet { nanos, link, data, original } = packet;
            packets.push(Packet { nanos, link: link?, data: data.to_vec(), original });
        }
    }
    packets.sort_by_key(|packet| packet.nanos);
    let link = packets.first()?.link;
    packets.iter().all(|packet| packet.link == link).then_some(packets)
}

fn write<'a>(path: &Path, link: u16, packets: impl IntoIterator<Item = &'a Packet>) {
    let mut writer = pcap::Writer::new(File::create(path).unwrap(), link).unwrap();
    for packet in packets {
        writer.write(packet.nanos, packet.original, [&packet.data, &[]]).unwrap();
    }
}

/// The places of packets, each as late as another queue might bring it, those of one time together.
fn late_places(packets: &[Packet], dice: &mut Dice, most_late: usize) -> Vec<usize> {
    let mut stands: Vec<(i64, usize)> = Vec::new();
    for (place, packet) in packets.iter().enumerate() {
        let stand = match place.checked_sub(1) {
            Some(before) if packets[before].nanos == packet.nanos => stands[before].0,
            _ => packet.nanos + if dice.below(2) == 0 { dice.below(most_late) as i64 } else { 0 },
        };
        stands.push((stand, place));
    }
    stands.sort();
    stands.into_iter().map(|(_, place)| place).collect()
}

/// What an import makes, its records' packets, and what it says else.
type Imported = (Vec<u8>, Vec<Arrival>, String);

fn imported(paths: &[&Path], keys: &Path, number: impl Fn(u64) -> u64) -> (Imported, Reordered) {
    let mut courses = Courses::default();
    let note = |arrivals: &mut Vec<Arrival>, record: &Record<'_>| {
        let Arrival { packet, nanos } = record.arrival;
        arrivals.push(Arrival { packet: number(packet), nanos });
    };
    let made = common::import_in(paths, keys, true, Some(&mut courses), note);
    let (made, arrivals, summary) = made.unwrap_or_else(|failure| panic!("{}", failure.message()));
    assert_eq!(summary.back.map(|back| back.packets), None);
    let openings: Vec<_> = summary.outcomes.iter().map(|one| (number(one.opening), one.became.words())).collect();
    let unopened: Vec<_> = summary.unopened.iter().map(|one| (number(one.first.packet), one.segments)).collect();
    let courses = courses.connections.iter().flatten();
    let held: Vec<_> = courses.flat_map(|one| one.held.iter().map(|held| held.begin)).collect();
    ((made, arrivals, format!("{openings:?} {unopened:?} {held:?}")), summary.reordered.unwrap())
}

#[test]
fn packets_of_two_queues() {
    let folder = tempfile::tempdir().unwrap();
    let [whole, first, second]: [PathBuf; 3] = ["whole", "first", "second"].map(|name| folder.path().join(name));
    let captures: Vec<_> =
        common::captures().into_iter().filter_map(|(path, keys)| Some((packets_of(&path)?, keys))).collect();
    assert!(captures.len() > 15, "{}", captures.len());
    let mut put_in_order = 0;
    mutations::each(300, |dice| {
        let (packets, keys) = dice.of_these(&captures);
        let link = packets[0].link;
        write(&whole, link, packets);
        let wanted = imported(&[&whole], keys, |number| number);
        assert_eq!(wanted.1, Reordered::default());
        let most_late = [1000, 1_000_000, 999_999_999][dice.below(3)];
        let places = late_places(packets, dice, most_late);
        let cut = dice.below(places.len());
        write(&first, link, places[..cut].iter().map(|place| &packets[*place]));
        write(&second, link, places[cut..].iter().map(|place| &packets[*place]));
        let found = imported(&[&first, &second], keys, |number| places[number as usize - 1] as u64 + 1);
        assert!(found.0 == wanted.0, "other records or packets: {places:?}");
        assert!(found.1.left == 0 && found.1.nanos < SECOND as u64);
        put_in_order += found.1.packets;
    });
    assert!(put_in_order > 1000, "{put_in_order}");
}

/// A long capture, of which each tenth packet is late.
#[test]
fn many_packets() {
    let folder = tempfile::tempdir().unwrap();
    let path = folder.path().join("capture");
    let packets = packets_of(&common::top().join("tests/answer/packets_late_in_file.pcap")).unwrap();
    let mut many = Vec::new();
    for turn in 0..300_000 {
        let Packet { link, data, original, .. } = packets[turn % packets.len()].clone();
        let late = if turn % 10 == 9 { 9_500 } else { 0 };
        many.push(Packet { nanos: 5 * SECOND + turn as i64 * 1000 - late, link, data, original });
    }
    write(&path, many[0].link, &many);
    let (_, done) = imported(&[&path], Path::new("none"), |number| number);
    assert_eq!(done, Reordered { packets: 30_000, nanos: 8_500, left: 0 });
}
