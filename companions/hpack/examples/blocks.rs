//! Decodes blocks that it reads from standard input, for tests to compare: a byte of what comes, four of its size, and
//! of a block its bytes. `N` is a new decoder, `A` an allowed table, `B` a block. For each block there is a line: how
//! many entries the dynamic table has, their size, and the values that are wanted, in hexadecimal digits; or what is
//! damaged.

#![forbid(unsafe_code)]

use std::io::{self, BufWriter, Read, Write};

use hpack::{Decoder, Name};

fn main() -> io::Result<()> {
    let mut input = Vec::new();
    io::stdin().read_to_end(&mut input)?;
    let mut output = BufWriter::new(io::stdout().lock());
    let mut decoder = Decoder::new();
    let mut rest = &input[..];
    while let [kind, a, b, c, d, after @ ..] = rest {
        rest = after;
        let size = u32::from_be_bytes([*a, *b, *c, *d]);
        match kind {
            b'N' => decoder = Decoder::new(),
            b'A' => decoder.allow_table(size),
            _ => {
                let (block, after) = rest.split_at(size as usize);
                rest = after;
                writeln!(output, "{}", line_of(&mut decoder, block))?;
            }
        }
    }
    output.flush()
}

fn line_of(decoder: &mut Decoder, block: &[u8]) -> String {
    let fields = match decoder.decode(block) {
        Err(damage) => return damage.to_string(),
        Ok(fields) => fields,
    };
    let (count, size) = decoder.table();
    let mut words = vec![count.to_string(), size.to_string()];
    for name in Name::ALL {
        if let Some(value) = fields.value(name) {
            let digits: String = value.iter().map(|octet| format!("{octet:02x}")).collect();
            words.push(format!("{}={digits}", name.text()));
        }
    }
    words.join(" ")
}
