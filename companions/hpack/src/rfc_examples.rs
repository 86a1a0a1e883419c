//! The examples of RFC 7541, appendix C, with what the dynamic table holds after each block.

use crate::block::Block;
use crate::fields::Name;
use crate::table::{FieldName, Indexed};
use crate::Decoder;

type Field = (&'static str, &'static str);

/// A block, the fields that it means, and the entries of the table after it, the newest first, with their size.
struct Example {
    block: &'static str,
    fields: &'static [Field],
    entries: &'static [Field],
    size: usize,
}

const GET: Field = (":method", "GET");
const HTTP: Field = (":scheme", "http");
const HTTPS: Field = (":scheme", "https");
const AUTHORITY: Field = (":authority", "www.example.com");
const NO_CACHE: Field = ("cache-control", "no-cache");
const CUSTOM: Field = ("custom-key", "custom-value");
const PRIVATE: Field = ("cache-control", "private");
const DATE: Field = ("date", "Mon, 21 Oct 2013 20:13:21 GMT");
const LATER: Field = ("date", "Mon, 21 Oct 2013 20:13:22 GMT");
const LOCATION: Field = ("location", "https://www.example.com");
const GZIP: Field = ("content-encoding", "gzip");
const COOKIE: Field = ("set-cookie", "foo=ASDJKHQKBZXOQWEOPIUAXQWEOIU; max-age=3600; version=1");

const FIRST_REQUEST: &[Field] = &[GET, HTTP, (":path", "/"), AUTHORITY];
const SECOND_REQUEST: &[Field] = &[GET, HTTP, (":path", "/"), AUTHORITY, NO_CACHE];
const THIRD_REQUEST: &[Field] = &[GET, HTTPS, (":path", "/index.html"), AUTHORITY, CUSTOM];
const FIRST_RESPONSE: &[Field] = &[(":status", "302"), PRIVATE, DATE, LOCATION];
const SECOND_RESPONSE: &[Field] = &[(":status", "307"), PRIVATE, DATE, LOCATION];
const THIRD_RESPONSE: &[Field] = &[(":status", "200"), PRIVATE, LATER, LOCATION, GZIP, COOKIE];

fn octets(hex: &str) -> Vec<u8> {
    let digits: Vec<u8> = hex.bytes().filter(u8::is_ascii_hexdigit).collect();
    let byte = |pair: &[u8]| u8::from_str_radix(std::str::from_utf8(pair).expect("ASCII"), 16).expect("two digits");
    digits.chunks(2).map(byte).collect()
}

fn check(decoder: &mut Decoder, examples: &[Example]) {
    for example in examples {
        let fields = decoder.decode(&octets(example.block)).expect("fields");
        for name in Name::ALL {
            let wanted = example.fields.iter().find(|field| field.0 == name.text()).map(|field| field.1.as_bytes());
            assert_eq!(fields.value(name), wanted, "{} of {}", name.text(), example.block);
        }
        assert_eq!(decoder.table(), (example.entries.len(), example.size), "{}", example.block);
        for (index, entry) in (62..).zip(example.entries) {
            check_entry(decoder, index, entry);
        }
    }
}

/// Compares the entry with this index with a field, as far as it is kept.
fn check_entry(decoder: &Decoder, index: u64, (name, value): &Field) {
    let entry = match decoder.table.get(index) {
        Ok(Indexed::Dynamic(entry)) => entry,
        _ => panic!("no entry {index}"),
    };
    let wanted = Name::of(name.as_bytes());
    assert_eq!(entry.name, wanted.map_or(FieldName::Other(name.len() as u32), FieldName::Wanted));
    assert_eq!(entry.value_length as usize, value.len());
    assert_eq!(entry.value.as_deref(), wanted.map(|_| value.as_bytes()));
}

#[test]
fn integers() {
    let integer = |hex: &str, bits| Block::new(&octets(hex)).integer(bits);
    assert_eq!(integer("0a", 5), Ok(10));
    assert_eq!(integer("1f 9a 0a", 5), Ok(1337));
    assert_eq!(integer("2a", 8), Ok(42));
}

#[test]
fn fields_alone() {
    let field = |block, fields, entries, size| check(&mut Decoder::new(), &[Example { block, fields, entries, size }]);
    const KEY: &[Field] = &[("custom-key", "custom-header")];
    field("400a 6375 7374 6f6d 2d6b 6579 0d63 7573 746f 6d2d 6865 6164 6572", KEY, KEY, 55);
    field("040c 2f73 616d 706c 652f 7061 7468", &[(":path", "/sample/path")], &[], 0);
    field("1008 7061 7373 776f 7264 0673 6563 7265 74", &[("password", "secret")], &[], 0);
    field("82", &[GET], &[], 0);
}

fn requests(blocks: [&'static str; 3]) {
    let [first, second, third] = blocks;
    let examples = [
        Example { block: first, fields: FIRST_REQUEST, entries: &[AUTHORITY], size: 57 },
        Example { block: second, fields: SECOND_REQUEST, entries: &[NO_CACHE, AUTHORITY], size: 110 },
        Example { block: third, fields: THIRD_REQUEST, entries: &[CUSTOM, NO_CACHE, AUTHORITY], size: 164 },
    ];
    check(&mut Decoder::new(), &examples);
}

#[test]
fn requests_without_huffman_code() {
    requests([
        "8286 8441 0f77 7777 2e65 7861 6d70 6c65 2e63 6f6d",
        "8286 84be 5808 6e6f 2d63 6163 6865",
        "8287 85bf 400a 6375 7374 6f6d 2d6b 6579 0c63 7573 746f 6d2d 7661 6c75 65",
    ]);
}

#[test]
fn requests_with_huffman_code() {
    requests([
        "8286 8441 8cf1 e3c2 e5f2 3a6b a0ab 90f4 ff",
        "8286 84be 5886 a8eb 1064 9cbf",
        "8287 85bf 4088 25a8 49e9 5ba9 7d7f 8925 a849 e95b b8e8 b4bf",
    ]);
}

/// Tries responses in a table of 256 bytes.
fn responses(blocks: [&'static str; 3]) {
    let [first, second, third] = blocks;
    let (fields, entries) = (FIRST_RESPONSE, &[LOCATION, DATE, PRIVATE, (":status", "302")]);
    let examples = [
        Example { block: "3fe101", fields: &[], entries: &[], size: 0 },
        Example { block: first, fields, entries, size: 222 },
        Example {
            block: second,
            fields: SECOND_RESPONSE,
            entries: &[(":status", "307"), LOCATION, DATE, PRIVATE],
            size: 222,
        },
        Example { block: third, fields: THIRD_RESPONSE, entries: &[COOKIE, GZIP, LATER], size: 215 },
    ];
    check(&mut Decoder::new(), &examples);
}

#[test]
fn responses_without_huffman_code() {
    responses([
        "4803 3330 3258 0770 7269 7661 7465 611d 4d6f 6e2c 2032 3120 4f63 7420 3230 3133 2032 303a 3133 3a32 3120 474d
         546e 1768 7474 7073 3a2f 2f77 7777 2e65 7861 6d70 6c65 2e63 6f6d",
        "4803 3330 37c1 c0bf",
        "88c1 611d 4d6f 6e2c 2032 3120 4f63 7420 3230 3133 2032 303a 3133 3a32 3220 474d 54c0 5a04 677a 6970 7738 666f
         6f3d 4153 444a 4b48 514b 425a 584f 5157 454f 5049 5541 5851 5745 4f49 553b 206d 6178 2d61 6765 3d33 3630 303b
         2076 6572 7369 6f6e 3d31",
    ]);
}

#[test]
fn responses_with_huffman_code() {
    responses([
        "4882 6402 5885 aec3 771a 4b61 96d0 7abe 9410 54d4 44a8 2005 9504 0b81 66e0 82a6 2d1b ff6e 919d 29ad 1718 63c7
         8f0b 97c8 e9ae 82ae 43d3",
        "4883 640e ffc1 c0bf",
        "88c1 6196 d07a be94 1054 d444 a820 0595 040b 8166 e084 a62d 1bff c05a 839b d9ab 77ad 94e7 821d d7f2 e6c7 b335
         dfdf cd5b 3960 d5af 2708 7f36 72c1 ab27 0fb5 291f 9587 3160 65c0 03ed 4ee5 b106 3d50 07",
    ]);
}
