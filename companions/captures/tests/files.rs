//! Files in all forms: what stands in them, and what is wrong with them.

use std::io::{Cursor, Read, Write};

use captures::{pcap, pcapng, Error, Item, Order, Reader, Source};

/// What a file gives: bytes of packets, then whether it is cut.
#[derive(Debug, PartialEq)]
struct Got {
    packets: Vec<Vec<u8>>,
    is_cut: bool,
}

fn source(data: &[u8]) -> Result<Source, Error> {
    Source::new(Box::new(Cursor::new(data.to_vec())))
}

fn got(data: &[u8]) -> Result<(Got, bool), String> {
    let read = || -> Result<(Got, bool), Error> {
        let mut reader = Reader::new(source(data)?)?;
        let mut found = Got { packets: Vec::new(), is_cut: false };
        while let Some(item) = reader.next()? {
            match item {
                Item::Packet(packet) => found.packets.push(packet.data.to_vec()),
                Item::Cut => found.is_cut = true,
                Item::Secrets(_) => {}
            }
        }
        Ok((found, reader.source().has_bytes_behind()))
    };
    read().map_err(|error| error.to_string())
}

fn packets(count: u32) -> Vec<Vec<u8>> {
    (0..count).map(|at| (0..20 + at % 1400).map(|byte| (byte * 31 + at * 7) as u8).collect()).collect()
}

fn pcap_of(packets: &[Vec<u8>]) -> Vec<u8> {
    let mut writer = pcap::Writer::new(Vec::new(), 1).unwrap();
    for (at, packet) in packets.iter().enumerate() {
        writer.write(at as i64 * 1_000_000_000, packet.len() as u32, [packet, &[]]).unwrap();
    }
    writer.into_inner()
}

fn gzip_of(data: &[u8]) -> Vec<u8> {
    let mut packed = Vec::new();
    flate2::read::GzEncoder::new(data, flate2::Compression::fast()).read_to_end(&mut packed).unwrap();
    packed
}

fn whole(packets: Vec<Vec<u8>>) -> Result<(Got, bool), String> {
    Ok((Got { packets, is_cut: false }, false))
}

#[test]
fn packed_files_give_what_they_hold() {
    let packets = packets(300);
    let data = pcap_of(&packets);
    let mut xz = xz2::write::XzEncoder::new(Vec::new(), 1);
    xz.write_all(&data).unwrap();
    let mut bzip2 = bzip2::write::BzEncoder::new(Vec::new(), bzip2::Compression::fast());
    bzip2.write_all(&data).unwrap();
    let forms = [
        data.clone(),
        gzip_of(&data),
        [gzip_of(&data[..5000]), vec![0; 300], gzip_of(&data[5000..])].concat(),
        zstd::encode_all(&data[..], 1).unwrap(),
        xz.finish().unwrap(),
        bzip2.finish().unwrap(),
    ];
    for form in forms {
        assert_eq!(got(&form), whole(packets.clone()));
    }
}

/// All packets up to the cut, which is said, wherever it is: within the head of a member, its data or its checksum.
#[test]
fn a_gzip_file_that_is_cut_gives_what_comes_before() {
    let packets = packets(2000);
    let packed = gzip_of(&pcap_of(&packets));
    for length in [packed.len() - 1, packed.len() - 8, packed.len() - 9, packed.len() / 2, packed.len() / 7] {
        let (found, _) = got(&packed[..length]).unwrap();
        assert!(found.is_cut, "{length}");
        assert_eq!(found.packets[..], packets[..found.packets.len()], "{length}");
        assert!(found.packets.len() * packed.len() > length * packets.len() / 2, "{length}: {}", found.packets.len());
    }
    assert_eq!(got(&packed[..12]), Err("capture refused: short-header".to_string()));
}

#[test]
fn bytes_behind_gzip_are_passed_over() {
    let packets = packets(10);
    let packed = [gzip_of(&pcap_of(&packets)), b"\0\0something else".to_vec()].concat();
    assert_eq!(got(&packed), Ok((Got { packets, is_cut: false }, true)));
}

#[test]
fn damage_is_named() {
    let data = pcap_of(&packets(100));
    let mut packed = gzip_of(&data);
    let middle = packed.len() - 6;
    packed[middle] ^= 1;
    assert_eq!(got(&packed), Err("capture refused: bad-gzip".to_string()));
    let names: [(&[u8], &str); 8] = [
        (b"", "short-header"),
        (b"abcdefgh", "bad-magic"),
        (b"\x1f\x8bxxxxxxxxx", "bad-gzip"),
        (b"\x28\xb5\x2f\xfdxxxxxxxxx", "bad-zstd"),
        (b"\xfd7zXZ\0xxxxxxxxxxxxxxxxxxxxx", "bad-xz"),
        (b"BZh91AY&SYxxxxxxxxxxxxxxxxxxxxxxxxxxxx", "bad-bzip2"),
        (b"\x04\x22\x4d\x18xxxxxxxxx", "lz4"),
        (&data[..23], "short-header"),
    ];
    for (bytes, name) in names {
        assert_eq!(got(bytes), Err(format!("capture refused: {name}")), "{bytes:?}");
    }
}

fn ng(blocks: &[(u32, Vec<u8>)]) -> Vec<u8> {
    let mut data = Vec::new();
    pcapng::put_block(&mut data, Order::Big, pcapng::SECTION_HEADER, &[&pcapng::section_body(Order::Big)]).unwrap();
    let interface = [Order::Big.put_u16(1).to_vec(), vec![0; 6]].concat();
    pcapng::put_block(&mut data, Order::Big, pcapng::INTERFACE, &[&interface]).unwrap();
    for (kind, body) in blocks {
        pcapng::put_block(&mut data, Order::Big, *kind, &[body]).unwrap();
    }
    data
}

/// Which blocks have a number is what tshark 4.0.17 shows of a file with each of them.
#[test]
fn blocks_are_numbered_as_wireshark_does() {
    let kinds = [0x9, 0xBAD, 0x4000_0BAD, 0x204, 0x216, 0x221, 0x208, 0x217, 0x21F, 0x222, 4, 5];
    let numbered: Vec<u32> = kinds.into_iter().filter(|kind| pcapng::is_numbered(*kind)).collect();
    assert_eq!(numbered, kinds[..6]);
    let file = ng(&kinds.map(|kind| (kind, vec![0; 8])));
    assert_eq!(got(&file), whole(vec![Vec::new(); 6]));
}

/// Memory grows as bytes come, whatever a length says.
#[test]
fn lengths_without_bytes_are_cut_or_refused() {
    let head = pcap_of(&[]);
    let claims = |length: u32| [&head[..], &[0; 8], &length.to_le_bytes(), &[9, 0, 0, 0], &[1; 50]].concat();
    let cut = Ok((Got { packets: Vec::new(), is_cut: true }, false));
    assert_eq!(got(&claims(1 << 31)), cut);
    assert_eq!(got(&claims(1 << 23)), cut);
    let mut long = ng(&[]);
    long.extend([0, 0, 0, 6, 0xFF, 0xFF, 0xFF, 0xFC, 1, 1]);
    assert_eq!(got(&long), Err("capture refused: too-long-block".to_string()));
}
